/* A small boot loader that swaps two images by moving them, over a file that holds both slots, the primary first. It was written from
 * docs/MODEL.md and docs/FORMAT.md, shares no code with mcsim, and is not proved: it stands here to be tried by scripts/conform.
 *
 *   loader FILE --sector N --unit N --max-sectors N --chunk N --primary N --secondary N [--grain call|unit] [--profile 1|2|3]
 *          [--stop-after N]
 *
 * It performs one boot on FILE, in place, and prints the boot's type and how many operations happened. With --stop-after it loses power
 * after so many. The status is 0, 1 where an operation met bytes that are not erased, and 2 where the command line or the file is not as
 * it must be.
 *
 * Bugs can be compiled in, one at a time, to see that they are found:
 *   -DENTRY_BEFORE_COPIES   a status entry is written before the copies of its transfer
 *   -DNO_ERASE_ON_RESUME    the transfer that was cut goes on without erasing its target anew
 *   -DCOPY_DONE_EARLY       copy-done is written before image-ok
 *   -DSECONDARY_NOT_ERASED  the secondary's trailer is not erased
 *   -DHIGHEST_AS_LOWEST     the lowest written entry is taken for the highest
 *   -DUNPREPARED_REVERT     a revert begins without making the secondary's trailer anew
 *   -DENTRY_BY_VALUE        a status entry is taken as written only where it begins with a byte that is written there
 */
#include <stdbool.h>
#include <stdint.h>
#include <stdio.h>
#include <stdlib.h>
#include <string.h>

enum slot { PRIMARY, SECONDARY };
enum kind { NONE, TEST, PERM, REVERT, FAIL, PANIC };
static const char *const KIND_NAMES[] = {"none", "test", "perm", "revert", "fail", "panic"};
static const uint8_t MAGIC[16] = {0x77, 0xc2, 0x95, 0xf3, 0x60, 0xd2, 0xef, 0x7f, 0x35, 0x52, 0x50, 0x0f, 0x2c, 0xb6, 0x79, 0x80};

/* How far before the end of a slot each field begins. */
enum field { AT_MAGIC = 16, AT_IMAGE_OK = 24, AT_COPY_DONE = 32, AT_SWAP_INFO = 40, AT_SWAP_SIZE = 48 };

static struct {
    uint32_t sector, unit, max_sectors, chunk, sectors[2];
    bool by_units;
    uint32_t profile;
} layout;

static struct {
    const char *path;
    uint8_t *bytes[2];
    uint32_t made, stop_after;
    enum kind kind;
} boot;

/* ---- the file and its operations */

static void die(const char *what) {
    fprintf(stderr, "loader: %s\n", what);
    exit(2);
}

static uint32_t size_of(enum slot slot) { return layout.sectors[slot] * layout.sector; }

static void load(void) {
    size_t size = (size_t)size_of(PRIMARY) + size_of(SECONDARY);
    FILE *file = fopen(boot.path, "rb");
    boot.bytes[PRIMARY] = malloc(size + 1);
    if (file == NULL || boot.bytes[PRIMARY] == NULL || fread(boot.bytes[PRIMARY], 1, size + 1, file) != size) {
        die("the file cannot be read, or has not as many bytes as both slots");
    }
    boot.bytes[SECONDARY] = boot.bytes[PRIMARY] + size_of(PRIMARY);
    fclose(file);
}

/* The end of a boot: its own, or that of the power. */
static _Noreturn void end(int status) {
    FILE *file = fopen(boot.path, "wb");
    size_t size = (size_t)size_of(PRIMARY) + size_of(SECONDARY);
    if (file == NULL || fwrite(boot.bytes[PRIMARY], 1, size, file) != size || fclose(file) != 0) {
        die("the file cannot be written");
    }
    printf("%s %u\n", KIND_NAMES[boot.kind], boot.made);
    exit(status);
}

static void begin_operation(void) {
    if (boot.made == boot.stop_after) end(0);
}

static void erase(enum slot slot, uint32_t sector) {
    begin_operation();
    memset(boot.bytes[slot] + (size_t)sector * layout.sector, 0xff, layout.sector);
    boot.made++;
}

/* One write, whole or not at all, where all is erased. */
static void write_once(enum slot slot, uint32_t at, const uint8_t *bytes, uint32_t len) {
    begin_operation();
    for (uint32_t i = 0; i < len; i++) {
        if (boot.bytes[slot][at + i] != 0xff) end(1);
    }
    memcpy(boot.bytes[slot] + at, bytes, len);
    boot.made++;
}

/* A write call: one operation, or one for each unit. */
static void write_call(enum slot slot, uint32_t at, const uint8_t *bytes, uint32_t len) {
    uint32_t step = layout.by_units ? layout.unit : len;
    for (uint32_t done = 0; done < len; done += step) write_once(slot, at + done, bytes + done, step);
}

/* ---- trailers */

static uint32_t place(enum slot slot, enum field field) { return size_of(slot) - field; }

static uint32_t trailer_bytes(void) { return 3 * layout.max_sectors * layout.unit + 48; }

static uint32_t sectors_for(uint32_t bytes) { return bytes / layout.sector + (bytes % layout.sector != 0); }

static uint32_t entry_place(uint32_t entry) { return size_of(PRIMARY) - trailer_bytes() + entry * layout.unit; }

static bool is_erased(const uint8_t *bytes, uint32_t len) {
    for (uint32_t i = 0; i < len; i++) {
        if (bytes[i] != 0xff) return false;
    }
    return true;
}

static bool magic_good(enum slot slot) { return memcmp(boot.bytes[slot] + place(slot, AT_MAGIC), MAGIC, 16) == 0; }

static bool magic_unset(enum slot slot) { return is_erased(boot.bytes[slot] + place(slot, AT_MAGIC), 16); }

static uint8_t byte_at(enum slot slot, enum field field) { return boot.bytes[slot][place(slot, field)]; }

static bool flag_set(enum slot slot, enum field field) { return byte_at(slot, field) == 0x01; }

static bool flag_unset(enum slot slot, enum field field) { return byte_at(slot, field) == 0xff; }

static uint32_t swap_size(void) {
    const uint8_t *at = boot.bytes[PRIMARY] + place(PRIMARY, AT_SWAP_SIZE);
    return (uint32_t)at[0] | (uint32_t)at[1] << 8 | (uint32_t)at[2] << 16 | (uint32_t)at[3] << 24;
}

static void erase_trailer(enum slot slot) {
#ifdef SECONDARY_NOT_ERASED
    if (slot == SECONDARY) return;
#endif
    uint32_t count = sectors_for(trailer_bytes());
    for (uint32_t i = 1; i <= count; i++) erase(slot, layout.sectors[slot] - i);
}

static void write_unit(enum slot slot, uint32_t at, uint8_t value) {
    uint8_t bytes[8];
    memset(bytes, 0xff, sizeof bytes);
    bytes[0] = value;
    write_once(slot, at, bytes, layout.unit);
}

static void write_flag(enum slot slot, enum field field) { write_unit(slot, place(slot, field), 0x01); }

static void write_size_and_magic(enum slot slot, uint32_t size) {
    uint8_t bytes[8];
    memset(bytes, 0xff, sizeof bytes);
    for (int i = 0; i < 4; i++) bytes[i] = (uint8_t)(size >> (8 * i));
    write_call(slot, place(slot, AT_SWAP_SIZE), bytes, layout.unit == 8 ? 8 : 4);
    write_call(slot, place(slot, AT_MAGIC), MAGIC, 16);
}

/* Whether a status entry is written, torn or not. */
static bool is_written(uint32_t entry) {
    const uint8_t *unit = boot.bytes[PRIMARY] + entry_place(entry);
#ifdef ENTRY_BY_VALUE
    return unit[0] < 0x04;
#endif
    return !is_erased(unit, layout.unit);
}

/* The number of the highest written entry and one more, or 0. */
static uint32_t entries_written(void) {
    uint32_t found = 0;
    for (uint32_t entry = 0; entry < 3 * layout.max_sectors; entry++) {
        if (is_written(entry)) {
            found = entry + 1;
#ifdef HIGHEST_AS_LOWEST
            break;
#endif
        }
    }
    return found;
}

/* ---- images: SHA-256 (FIPS 180-4) and the form of an image */

static uint32_t rotated(uint32_t x, int by) { return x >> by | x << (32 - by); }

static const uint32_t ROUNDS[64] = {
    0x428a2f98, 0x71374491, 0xb5c0fbcf, 0xe9b5dba5, 0x3956c25b, 0x59f111f1, 0x923f82a4, 0xab1c5ed5, 0xd807aa98, 0x12835b01, 0x243185be,
    0x550c7dc3, 0x72be5d74, 0x80deb1fe, 0x9bdc06a7, 0xc19bf174, 0xe49b69c1, 0xefbe4786, 0x0fc19dc6, 0x240ca1cc, 0x2de92c6f, 0x4a7484aa,
    0x5cb0a9dc, 0x76f988da, 0x983e5152, 0xa831c66d, 0xb00327c8, 0xbf597fc7, 0xc6e00bf3, 0xd5a79147, 0x06ca6351, 0x14292967, 0x27b70a85,
    0x2e1b2138, 0x4d2c6dfc, 0x53380d13, 0x650a7354, 0x766a0abb, 0x81c2c92e, 0x92722c85, 0xa2bfe8a1, 0xa81a664b, 0xc24b8b70, 0xc76c51a3,
    0xd192e819, 0xd6990624, 0xf40e3585, 0x106aa070, 0x19a4c116, 0x1e376c08, 0x2748774c, 0x34b0bcb5, 0x391c0cb3, 0x4ed8aa4a, 0x5b9cca4f,
    0x682e6ff3, 0x748f82ee, 0x78a5636f, 0x84c87814, 0x8cc70208, 0x90befffa, 0xa4506ceb, 0xbef9a3f7, 0xc67178f2};

static void add_block(uint32_t state[8], const uint8_t *block) {
    uint32_t w[64], s[8];
    for (int i = 0; i < 16; i++) {
        w[i] = (uint32_t)block[4 * i] << 24 | (uint32_t)block[4 * i + 1] << 16 | (uint32_t)block[4 * i + 2] << 8 | block[4 * i + 3];
    }
    for (int i = 16; i < 64; i++) {
        uint32_t low = rotated(w[i - 15], 7) ^ rotated(w[i - 15], 18) ^ w[i - 15] >> 3;
        uint32_t high = rotated(w[i - 2], 17) ^ rotated(w[i - 2], 19) ^ w[i - 2] >> 10;
        w[i] = w[i - 16] + low + w[i - 7] + high;
    }
    memcpy(s, state, sizeof s);
    for (int i = 0; i < 64; i++) {
        uint32_t choice = (s[4] & s[5]) ^ (~s[4] & s[6]), majority = (s[0] & s[1]) ^ (s[0] & s[2]) ^ (s[1] & s[2]);
        uint32_t one = s[7] + (rotated(s[4], 6) ^ rotated(s[4], 11) ^ rotated(s[4], 25)) + choice + ROUNDS[i] + w[i];
        uint32_t two = (rotated(s[0], 2) ^ rotated(s[0], 13) ^ rotated(s[0], 22)) + majority;
        memmove(s + 1, s, 7 * sizeof *s);
        s[4] += one;
        s[0] = one + two;
    }
    for (int i = 0; i < 8; i++) state[i] += s[i];
}

static bool has_digest(const uint8_t *bytes, uint32_t len, const uint8_t *digest) {
    uint32_t state[8] = {0x6a09e667, 0xbb67ae85, 0x3c6ef372, 0xa54ff53a, 0x510e527f, 0x9b05688c, 0x1f83d9ab, 0x5be0cd19};
    uint8_t last[128] = {0};
    uint32_t whole = len / 64 * 64, rest = len - whole, end_at = rest < 56 ? 64 : 128;
    for (uint32_t at = 0; at < whole; at += 64) add_block(state, bytes + at);
    memcpy(last, bytes + whole, rest);
    last[rest] = 0x80;
    for (int i = 0; i < 8; i++) last[end_at - 1 - i] = (uint8_t)((uint64_t)len * 8 >> (8 * i));
    for (uint32_t at = 0; at < end_at; at += 64) add_block(state, last + at);
    for (int i = 0; i < 32; i++) {
        if (digest[i] != (uint8_t)(state[i / 4] >> (24 - 8 * (i % 4)))) return false;
    }
    return true;
}

static uint32_t number(const uint8_t *at, int bytes) {
    uint32_t value = 0;
    for (int i = 0; i < bytes; i++) value |= (uint32_t)at[i] << (8 * i);
    return value;
}

/* Whether entries fill an area of that many bytes, its head among them; and how many of them are a digest, and where the last is. */
static bool entries_fill(const uint8_t *area, uint32_t total, uint32_t *digests, const uint8_t **digest) {
    uint32_t at = 4;
    while (at < total) {
        if (total - at < 4) return false;
        uint32_t type = number(area + at, 2), len = number(area + at + 2, 2);
        if (total - at - 4 < len) return false;
        if (type == 0x10) {
            ++*digests;
            *digest = len == 32 ? area + at + 4 : NULL;
        }
        at += 4 + len;
    }
    return true;
}

/* The size of the image that a slot begins with, by its structure alone, or 0; and whether its digest is right. */
static uint32_t image_size(enum slot slot, bool *valid) {
    const uint8_t *bytes = boot.bytes[slot], *digest = NULL, *unused = NULL;
    uint32_t size = size_of(slot), digests = 0, ignored = 0;
    *valid = false;
    if (size < 32 || number(bytes, 4) != 0x96f3b83d || number(bytes + 8, 2) < 32 || number(bytes + 16, 4) != 0) return 0;
    uint32_t header = number(bytes + 8, 2), protected_size = number(bytes + 10, 2);
    uint64_t body = (uint64_t)header + number(bytes + 12, 4) + protected_size;
    if (body > size) return 0;
    if (protected_size != 0) {
        const uint8_t *area = bytes + body - protected_size;
        if (protected_size < 4 || number(area, 2) != 0x6908 || number(area + 2, 2) != protected_size) return 0;
        if (!entries_fill(area, protected_size, &ignored, &unused)) return 0;
    }
    const uint8_t *plain = bytes + body;
    if (size - body < 4 || number(plain, 2) != 0x6907) return 0;
    uint32_t total = number(plain + 2, 2);
    if (total < 4 || total > size - body || !entries_fill(plain, total, &digests, &digest)) return 0;
    if (digests != 1 || digest == NULL) return 0;
    *valid = has_digest(bytes, (uint32_t)body, digest);
    return (uint32_t)body + total;
}

/* ---- boots */

static void copy_sector(enum slot from, uint32_t source, enum slot to, uint32_t target) {
    uint32_t step = layout.by_units ? layout.unit : layout.chunk;
    for (uint32_t at = 0; at < layout.sector; at += step) {
        write_once(to, target * layout.sector + at, boot.bytes[from] + (size_t)source * layout.sector + at, step);
    }
}

/* Transfer number t of a swap of n sectors: up by one in the primary, the last first; then in from the secondary, and out to it. */
static uint32_t entry_of(uint32_t t, uint32_t n) { return t < n ? t : layout.max_sectors + (t - n); }

static void transfer(uint32_t t, uint32_t n, bool erases) {
    enum slot from = PRIMARY, to = PRIMARY;
    uint32_t source = n - 1 - t, target = n - t;
    if (t >= n && (t - n) % 2 == 0) {
        from = SECONDARY;
        source = target = (t - n) / 2;
    } else if (t >= n) {
        to = SECONDARY;
        target = (t - n) / 2;
        source = target + 1;
    }
    if (erases) erase(to, target);
#ifdef ENTRY_BEFORE_COPIES
    write_unit(PRIMARY, entry_place(entry_of(t, n)), 0x01);
    copy_sector(from, source, to, target);
#else
    copy_sector(from, source, to, target);
    write_unit(PRIMARY, entry_place(entry_of(t, n)), 0x01);
#endif
}

static void transfers_and_finish(uint32_t first, uint32_t n, bool confirms, bool resumes) {
    for (uint32_t t = first; t < 3 * n; t++) {
#ifdef NO_ERASE_ON_RESUME
        transfer(t, n, !(resumes && t == first));
#else
        (void)resumes;
        transfer(t, n, true);
#endif
    }
#ifdef COPY_DONE_EARLY
    write_flag(PRIMARY, AT_COPY_DONE);
    if (confirms) write_flag(PRIMARY, AT_IMAGE_OK);
#else
    if (confirms) write_flag(PRIMARY, AT_IMAGE_OK);
    write_flag(PRIMARY, AT_COPY_DONE);
#endif
}

/* The most sectors of an image, or 0. */
static uint32_t most_sectors(void) {
    int64_t trailer = sectors_for(trailer_bytes()), most = layout.max_sectors;
    if ((int64_t)layout.sectors[PRIMARY] - 1 - trailer < most) most = (int64_t)layout.sectors[PRIMARY] - 1 - trailer;
    if ((int64_t)layout.sectors[SECONDARY] - trailer < most) most = (int64_t)layout.sectors[SECONDARY] - trailer;
    return most < 1 ? 0 : (uint32_t)most;
}

static void resume(void) {
    uint8_t info = byte_at(PRIMARY, AT_SWAP_INFO);
    uint32_t n = sectors_for(swap_size()), written = entries_written(), first = 0;
    if (info < 2 || info > 4) return;
    boot.kind = (enum kind)(info - 1);
    if (n > 0 && n <= most_sectors() && written > 0) {
        while (first < 3 * n && entry_of(first, n) != written - 1) first++;
        first++;
    }
    if (n == 0 || n > most_sectors() || first > 3 * n) {
        boot.kind = PANIC;
        return;
    }
    bool confirms = boot.kind != TEST && flag_unset(PRIMARY, AT_IMAGE_OK);
    if (written == 0) erase_trailer(SECONDARY);
    transfers_and_finish(first, n, confirms, true);
}

static void swap(void) {
    bool unused, valid;
    uint32_t size = image_size(PRIMARY, &unused), other = image_size(SECONDARY, &valid);
    if (other > size) size = other;
    uint32_t n = sectors_for(size);
    if (!valid || n > most_sectors()) {
        boot.kind = FAIL;
        return;
    }
    if (boot.kind == REVERT) {
#ifndef UNPREPARED_REVERT
        erase_trailer(SECONDARY);
        write_flag(SECONDARY, AT_IMAGE_OK);
        write_size_and_magic(SECONDARY, size);
#endif
    }
    erase_trailer(PRIMARY);
    write_unit(PRIMARY, place(PRIMARY, AT_SWAP_INFO), (uint8_t)(boot.kind + 1));
    if (boot.kind != TEST) write_flag(PRIMARY, AT_IMAGE_OK);
    write_size_and_magic(PRIMARY, size);
    erase_trailer(SECONDARY);
    transfers_and_finish(0, n, false, false);
}

/* What the trailers ask for. */
static enum kind asked(void) {
    if (magic_good(SECONDARY) && flag_unset(SECONDARY, AT_IMAGE_OK)) return TEST;
    if (magic_good(SECONDARY) && flag_set(SECONDARY, AT_IMAGE_OK)) return PERM;
    bool gone = magic_unset(SECONDARY) || (layout.profile >= 2 && !magic_good(SECONDARY));
    if (magic_good(PRIMARY) && gone && flag_unset(PRIMARY, AT_IMAGE_OK) && flag_set(PRIMARY, AT_COPY_DONE)) return REVERT;
    return NONE;
}

/* Whether a swap that was cut goes on: no other is asked for, by profile 3 in a way that is clear. */
static bool goes_on(void) {
    bool clear = flag_unset(SECONDARY, AT_IMAGE_OK) || flag_set(SECONDARY, AT_IMAGE_OK);
    bool other = magic_good(SECONDARY) && (layout.profile < 3 || clear);
    return magic_good(PRIMARY) && flag_unset(PRIMARY, AT_COPY_DONE) && !other;
}

/* ---- the command line */

static uint32_t number_of(const char *text) {
    char *rest;
    unsigned long value = strtoul(text, &rest, 10);
    if (*text == 0 || *rest != 0 || value > UINT32_MAX) die("a number is wanted");
    return (uint32_t)value;
}

static void read_words(int count, char **words) {
    static const char *const names[] = {"--sector", "--unit", "--max-sectors", "--chunk", "--primary", "--secondary", "--stop-after"};
    uint32_t *const numbers[] = {&layout.sector, &layout.unit, &layout.max_sectors, &layout.chunk, &layout.sectors[PRIMARY],
                                 &layout.sectors[SECONDARY], &boot.stop_after};
    if (count < 2 || count % 2 != 0) die("FILE and options with their values are wanted");
    boot.path = words[1];
    boot.stop_after = UINT32_MAX;
    for (int i = 2; i < count; i += 2) {
        size_t option = 0;
        while (option < 7 && strcmp(words[i], names[option]) != 0) option++;
        if (option < 7) {
            *numbers[option] = number_of(words[i + 1]);
        } else if (strcmp(words[i], "--grain") == 0) {
            layout.by_units = strcmp(words[i + 1], "unit") == 0;
        } else if (strcmp(words[i], "--profile") == 0) {
            layout.profile = number_of(words[i + 1]);
        } else {
            die("an option is not known");
        }
    }
    if (layout.sector < 64 || layout.unit < 1 || layout.unit > 8 || layout.chunk < layout.unit || most_sectors() < 1) {
        die("these numbers are no layout (mcsim layout says why)");
    }
}

int main(int count, char **words) {
    read_words(count, words);
    load();
    if (goes_on()) {
        resume();
    } else {
        boot.kind = asked();
        if (boot.kind != NONE) swap();
    }
    end(0);
}

/* A boot loader's own test in C: for every power cut of an upgrade, the flash that the cut leaves, and what is to come of it.
 *
 *     scripts/build-library
 *     gcc -O2 bindings/example.c crates/mc_c/out/libmcsim.a -o example && ./example examples/a.img examples/b.img
 *
 * Where it says `boot_it`, a real test loads the flash into an emulator and starts the real boot loader. */
#include "mcsim.h"
#include <stdio.h>
#include <string.h>

static uint8_t a[1 << 16], b[1 << 16], flash[1 << 16], left[1 << 16], text[1 << 12];

static size_t load(const char *name, uint8_t *room, size_t size) {
    FILE *file = fopen(name, "rb");
    size_t count = file != NULL ? fread(room, 1, size, file) : 0;
    if (file != NULL) fclose(file);
    return count;
}

/* The boot loader under test. Here the model stands in for it: a boot of this flash, to its end. */
static size_t boot_it(struct mcsim_source source, const uint8_t *bytes, size_t size, uint8_t *room, size_t most) {
    uint64_t count;
    static const uint32_t no_cut[1];
    static const uint8_t no_bytes[1];
    source.kind = MCSIM_FLASH;
    if (mcsim_flash_left(&source, bytes, size, no_bytes, 0, no_cut, 0, room, most, &count) != MCSIM_DONE) return 0;
    return count;
}

int main(int argc, char **argv) {
    struct mcsim_source source = {256, 8, 4, 128, 4, 3, 0, 1, MCSIM_TEST};
    uint64_t size, wanted, length;
    uint32_t cut;
    if (argc != 3) return 2;
    size_t a_len = load(argv[1], a, sizeof a), b_len = load(argv[2], b, sizeof b);
    for (cut = 0;; cut++) {
        uint32_t status = mcsim_flash_at_cut(&source, a, a_len, b, b_len, &cut, 1, flash, sizeof flash, &size);
        if (status == MCSIM_REFUSED && cut > 0) break; /* the boot makes no operation of that number */
        if (status != MCSIM_DONE) return printf("%.*s", (int)size, (char *)flash), 1;
        if (mcsim_flash_left(&source, a, a_len, b, b_len, &cut, 1, left, sizeof left, &wanted) != MCSIM_DONE) return 1;
        if (mcsim_outcome(&source, a, a_len, b, b_len, &cut, 1, text, sizeof text, &length) != MCSIM_DONE) return 1;
        static uint8_t got[1 << 16];
        size_t count = boot_it(source, flash, size, got, sizeof got);
        int same = count == wanted && memcmp(got, left, count) == 0;
        printf("cut before %u: %.*s, %s\n", cut, (int)strcspn((char *)text, "\n"), (char *)text, same ? "as it must be" : "OTHER FLASH");
        if (!same) return 1;
    }
    return printf("%u cuts\n", cut), 0;
}

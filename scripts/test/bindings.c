/* run-bindings A B C FILE WORDS..: runs one command line over three files by the library, as the program would, with standard input,
 * and writes the file `out` of the command line to FILE where it has bytes. */
#include "../../bindings/mcsim.h"
#include <stdio.h>
#include <stdlib.h>
#include <string.h>

/* All bytes of a stream, in a block of exactly so many, so that a byte read beyond them is seen. */
static uint8_t *read_all(FILE *stream, size_t *count) {
    size_t room = 1 << 16;
    uint8_t *bytes = malloc(room);
    *count = 0;
    if (stream == NULL || bytes == NULL) exit(70);
    for (size_t more; (more = fread(bytes + *count, 1, room - *count, stream)) > 0;) {
        *count += more;
        if (*count == room && (bytes = realloc(bytes, room *= 2)) == NULL) exit(70);
    }
    return realloc(bytes, *count > 0 ? *count : 1);
}

int main(int argc, char **argv) {
    if (argc < 5) return 2;
    uint8_t *files[3], *input, *words, *out = NULL, *err = NULL, *file = NULL;
    size_t sizes[3], input_size, size = 0, room = 64;
    struct mcsim_lengths lengths;
    uint32_t status;
    for (int i = 0; i < 3; i++) files[i] = read_all(fopen(argv[1 + i], "rb"), &sizes[i]);
    input = read_all(stdin, &input_size);
    for (int i = 5; i < argc; i++) size += 1 + strlen(argv[i]);
    words = malloc(5 + size);
    memcpy(words, "mcsim", 5);
    size = 5;
    for (int i = 5; i < argc; i++) {
        words[size++] = 0;
        memcpy(words + size, argv[i], strlen(argv[i]));
        size += strlen(argv[i]);
    }
    for (;;) {
        out = realloc(out, room);
        err = realloc(err, room);
        file = realloc(file, room);
        status = mcsim_run(words, size, files[0], sizes[0], files[1], sizes[1], files[2], sizes[2], input, input_size, out, room, err,
            room, file, room, &lengths);
        if (lengths.out <= room && lengths.err <= room && lengths.file <= room) break;
        room = lengths.out > lengths.err ? lengths.out : lengths.err;
        if (lengths.file > room) room = lengths.file;
    }
    fwrite(out, 1, lengths.out, stdout);
    fwrite(err, 1, lengths.err, stderr);
    if (lengths.file > 0) {
        FILE *stream = fopen(argv[4], "wb");
        if (stream == NULL || fwrite(file, 1, lengths.file, stream) != lengths.file || fclose(stream) != 0) return 70;
    }
    for (int i = 0; i < 3; i++) free(files[i]);
    free(input), free(words), free(out), free(err), free(file);
    return (int)status;
}

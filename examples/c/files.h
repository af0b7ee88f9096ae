/* What both examples need: files, a seed, and room for an answer. They compile as C and as C++. */
#include "nuigatre.h"

#include <stdio.h>
#include <stdlib.h>
#include <sys/random.h>

typedef struct buffer {
    uint8_t *bytes;
    size_t length;
} buffer;

/* Gives a buffer another length; ends the program where there is no memory. */
static void resize(buffer *of, size_t length) {
    of->bytes = (uint8_t *)realloc(of->bytes, length > 0 ? length : 1);
    if (of->bytes == NULL) {
        fputs("out of memory\n", stderr);
        exit(1);
    }
    of->length = length;
}

/* Appends the bytes of a file to a buffer; ends the program where it can't be read. */
static void append_file(buffer *to, const char *path) {
    FILE *file = fopen(path, "rb");
    size_t count = file == NULL ? 0 : 1;
    while (count > 0) {
        size_t length = to->length;
        resize(to, length + 65536);
        count = fread(to->bytes + length, 1, 65536, file);
        to->length = length + count;
    }
    if (file == NULL || ferror(file)) {
        perror(path);
        exit(1);
    }
    fclose(file);
}

/* A seed of maps, which no one who made an input knows. */
static void draw_seed(uint64_t seed[2]) {
    if (getrandom(seed, 16, 0) != 16) {
        perror("getrandom");
        exit(1);
    }
}

/* Ends the program where the library is of another form than the header. */
static void check_version(void) {
    if (nuigatre_abi() != NUIGATRE_ABI) {
        fputs("libnuigatre.a is of another version\n", stderr);
        exit(1);
    }
}

/* Trims an adapter, as `wctrim trim` does: trim IN OUT [--realloc NAME] EXPORT.. */
#include "files.h"

#include <string.h>

static nuigatre_slice slice_of(const char *text) {
    nuigatre_slice slice = {(const uint8_t *)text, strlen(text)};
    return slice;
}

/* Writes a file; the status of the program. */
static int write_file(const char *path, const uint8_t *bytes, size_t length) {
    FILE *file = fopen(path, "wb");
    int is_written = file != NULL && fwrite(bytes, 1, length, file) == length;
    if (file == NULL || fclose(file) != 0 || !is_written) {
        perror(path);
        return 1;
    }
    return 0;
}

/* Says why there is no answer; the status of the program. */
static int say_why(nuigatre_answer answer, const buffer *out, char **names) {
    switch (answer.status) {
    case NUIGATRE_BAD_ARGUMENT:
        fputs("there is no export, or a name is not UTF-8\n", stderr);
        return 2;
    case NUIGATRE_MEMORY:
        fputs("out of memory\n", stderr);
        return 1;
    default:
        break;
    }
    uint8_t text[64];
    nuigatre_answer fault = nuigatre_fault_text(NUIGATRE_TRIM_CALL, answer.fault, text, sizeof text);
    fprintf(stderr, "%.*s", fault.status == NUIGATRE_DONE ? (int)fault.length : 0, (const char *)text);
    if (answer.fault == NUIGATRE_GC_MISSING_EXPORT) fprintf(stderr, " `%s`", names[answer.position]);
    fprintf(stderr, " %.*s\n", (int)answer.length, (const char *)out->bytes);
    return 1;
}

int main(int count, char **words) {
    int has_realloc = count > 4 && strcmp(words[3], "--realloc") == 0;
    char **names = words + (has_realloc ? 5 : 3);
    if (count < (has_realloc ? 5 : 3)) {
        fputs("usage: trim IN OUT [--realloc NAME] EXPORT..\n", stderr);
        return 2;
    }
    check_version();
    size_t name_count = (size_t)(words + count - names);
    nuigatre_slice *required = (nuigatre_slice *)calloc(name_count + 1, sizeof *required);
    if (required == NULL) return 1;
    for (size_t at = 0; at < name_count; at++) required[at] = slice_of(names[at]);
    nuigatre_slice realloc_name = slice_of(has_realloc ? words[4] : "");
    uint64_t seed[2];
    draw_seed(seed);
    buffer wasm = {NULL, 0}, out = {NULL, 0};
    append_file(&wasm, words[1]);

    nuigatre_answer answer;
    size_t room = wasm.length + realloc_name.length + 1024;
    do {
        resize(&out, room);
        answer = nuigatre_trim(seed[0], seed[1], wasm.bytes, wasm.length, required, name_count, has_realloc != 0,
                               realloc_name.bytes, realloc_name.length, 16, out.bytes, out.length);
        room = answer.length;
    } while (room > out.length);

    int status = answer.status == NUIGATRE_DONE ? write_file(words[2], out.bytes, answer.length)
                                                : say_why(answer, &out, names);
    free(required);
    free(wasm.bytes);
    free(out.bytes);
    return status;
}

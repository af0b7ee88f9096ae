/* Does what `wctrim` does, by the library's calls: dedupe IN OUT, or trim IN OUT [--realloc NAME] EXPORT.. */
#define main trim
#include "../../examples/c/trim.c"
#undef main

/* Writes the renamed module, or the module as it is where nothing is renamed; the status of the program. */
static int dedupe(char **words) {
    buffer wasm = {NULL, 0}, out = {NULL, 0};
    append_file(&wasm, words[0]);
    nuigatre_answer answer;
    size_t room = wasm.length + 1024;
    do {
        resize(&out, room);
        answer = nuigatre_dedupe(wasm.bytes, wasm.length, out.bytes, out.length);
        room = answer.length;
    } while (room > out.length);
    int status = 1;
    if (answer.status == NUIGATRE_SAME) status = write_file(words[1], wasm.bytes, wasm.length);
    if (answer.status == NUIGATRE_DONE) status = write_file(words[1], out.bytes, answer.module_length);
    free(wasm.bytes);
    free(out.bytes);
    return status;
}

int main(int count, char **words) {
    if (count > 1 && strcmp(words[1], "trim") == 0) return trim(count - 1, words + 1);
    if (count == 4 && strcmp(words[1], "dedupe") == 0) {
        check_version();
        return dedupe(words + 2);
    }
    fputs("usage: like_wctrim dedupe IN OUT | trim IN OUT [--realloc NAME] EXPORT..\n", stderr);
    return 2;
}

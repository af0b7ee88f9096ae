/* Prints the plan of a component as JSON: plan WORLDS.json WORLD MAIN.wasm [NAME=ADAPTER.wasm [KEY]..]. A KEY is an
 * export of the world that the adapter has to have, as `wasi:cli/run`. */
/* open_memstream is of POSIX */
#define _POSIX_C_SOURCE 200809L
#include "files.h"

#include <string.h>

/* Writes a text as JSON. */
static void put_text(FILE *to, const char *text) {
    putc('"', to);
    for (; *text != '\0'; text++) {
        unsigned char byte = (unsigned char)*text;
        if (byte < 32 || byte == '"' || byte == '\\')
            fprintf(to, "\\u%04x", byte);
        else
            putc(byte, to);
    }
    putc('"', to);
}

/* The message for the library: all but the modules' bytes. */
static void put_message(FILE *to, const buffer *worlds, const char *world, size_t main_length, const char *adapter,
                        size_t adapter_length, char **keys, int key_count) {
    fputs("{\"resolve\":", to);
    fwrite(worlds->bytes, 1, worlds->length, to);
    fputs(",\"world\":", to);
    put_text(to, world);
    fprintf(to, ",\"length\":%zu,\"adapters\":[", main_length);
    if (adapter != NULL) {
        fputs("{\"name\":", to);
        put_text(to, adapter);
        fprintf(to, ",\"length\":%zu,\"exports\":[", adapter_length);
        for (int at = 0; at < key_count; at++) {
            if (at > 0) putc(',', to);
            put_text(to, keys[at]);
        }
        fputs("]}", to);
    }
    fputs("]}", to);
}

/* Prints the plan, or why there is none; the status of the program. */
static int print_answer(nuigatre_answer answer, const buffer *out) {
    const char *text = (const char *)out->bytes;
    switch (answer.status) {
    case NUIGATRE_DONE:
        fwrite(text, 1, answer.length, stdout);
        putchar('\n');
        return ferror(stdout) ? 1 : 0;
    case NUIGATRE_FAULT:
        /* the text, and then what it is about */
        fprintf(stderr, "%.*s\n", (int)answer.position, text);
        fprintf(stderr, "%.*s\n", (int)(answer.length - answer.position), text + answer.position);
        return 1;
    default:
        fputs("out of memory\n", stderr);
        return 1;
    }
}

int main(int count, char **words) {
    char *wasm = count > 4 ? strchr(words[4], '=') : NULL;
    if (count < 4 || (count > 4 && wasm == NULL)) {
        fputs("usage: plan WORLDS.json WORLD MAIN.wasm [NAME=ADAPTER.wasm [KEY]..]\n", stderr);
        return 2;
    }
    check_version();
    buffer worlds = {NULL, 0}, modules = {NULL, 0}, out = {NULL, 0};
    append_file(&worlds, words[1]);
    append_file(&modules, words[3]);
    size_t main_length = modules.length;
    if (wasm != NULL) {
        *wasm = '\0';
        append_file(&modules, wasm + 1);
    }
    char *message = NULL;
    size_t message_length = 0;
    FILE *to = open_memstream(&message, &message_length);
    if (to == NULL) return 1;
    put_message(to, &worlds, words[2], main_length, wasm == NULL ? NULL : words[4], modules.length - main_length,
                words + 5, count - 5);
    if (fclose(to) != 0) return 1;
    uint64_t seed[2];
    draw_seed(seed);

    nuigatre_answer answer;
    size_t room = 4096;
    do {
        resize(&out, room);
        answer = nuigatre_plan(seed[0], seed[1], (const uint8_t *)message, message_length, modules.bytes,
                               modules.length, out.bytes, out.length);
        room = answer.length;
    } while (room > out.length);

    int status = print_answer(answer, &out);
    free(message);
    free(worlds.bytes);
    free(modules.bytes);
    free(out.bytes);
    return status;
}

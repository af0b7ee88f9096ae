/* How many bytes of memory a call of the native library has at most at once, with what is passed and what comes back:
 *
 *     native_peak CALL MODULE [NAME ..]           dedupe, scan, trim, why and paths; NAMES are required exports, or ask for imports
 *     native_peak CALL MESSAGE MODULES [KEY]      the calls on messages
 *
 * web/test/memory.test.mjs has the numbers. It is linked with libnuigatre.a, as tools/targets.py --packed makes it. */
#include "nuigatre.h"

#include <stdio.h>
#include <stdlib.h>
#include <string.h>

enum { HEAD = 16, ROOM = 1 << 16 };
static size_t now, most;

static void *sized(void *block, size_t size) {
    unsigned char *front = block ? (unsigned char *)block - HEAD : NULL;
    size_t before = front ? *(size_t *)front : 0;
    front = realloc(front, size + HEAD);
    if (!front) exit(3);
    *(size_t *)front = size;
    now += size - before;
    if (now > most) most = now;
    return front + HEAD;
}

static void freed(void *block) {
    now -= *(size_t *)((unsigned char *)block - HEAD);
    free((unsigned char *)block - HEAD);
}

nuigatre_allocated rattle_alloc(size_t size, size_t align) {
    (void)align;
    return (nuigatre_allocated){1, sized(NULL, size)};
}

nuigatre_allocated rattle_realloc(void *block, size_t kept, size_t size, size_t align) {
    (void)kept, (void)align;
    return (nuigatre_allocated){1, sized(block, size)};
}

void rattle_dealloc(void *block) { freed(block); }

static nuigatre_slice content(const char *path) {
    FILE *file = fopen(path, "rb");
    if (!file) exit(2);
    fseek(file, 0, SEEK_END);
    size_t length = (size_t)ftell(file);
    uint8_t *bytes = sized(NULL, length);
    rewind(file);
    if (fread(bytes, 1, length, file) != length) exit(2);
    fclose(file);
    return (nuigatre_slice){bytes, length};
}

static nuigatre_answer called(char **words, int count, nuigatre_slice a, nuigatre_slice b, const nuigatre_slice *names, size_t length,
                              uint8_t *out, size_t room) {
    const char *call = words[1], *key = count > 4 ? words[4] : "all";
    if (!strcmp(call, "dedupe")) return nuigatre_dedupe(a.bytes, a.length, out, room);
    if (!strcmp(call, "scan")) return nuigatre_scan(a.bytes, a.length, out, room);
    if (!strcmp(call, "why")) return nuigatre_why(1, 2, a.bytes, a.length, names, length, out, room);
    if (!strcmp(call, "trim")) return nuigatre_trim(1, 2, a.bytes, a.length, names, length, 0, NULL, 0, 16, out, room);
    if (!strcmp(call, "paths")) return nuigatre_paths(1, 2, a.bytes, a.length, NULL, 0, names, length, out, room);
    if (!strcmp(call, "planned_world")) return nuigatre_planned_world(1, 2, a.bytes, a.length, b.bytes, b.length, out, room);
    if (!strcmp(call, "component_imports")) return nuigatre_component_imports(1, 2, a.bytes, a.length, b.bytes, b.length, out, room);
    if (!strcmp(call, "component_paths"))
        return nuigatre_component_paths(1, 2, a.bytes, a.length, b.bytes, b.length, (const uint8_t *)key, strlen(key), out, room);
    exit(2);
}

int main(int count, char **words) {
    if (count < 3) return 2;
    int is_message = !strcmp(words[1], "planned_world") || !strncmp(words[1], "component_", 10);
    nuigatre_slice a = content(words[2]), b = {NULL, 0}, names[1000];
    if (is_message) b = content(words[3]);
    size_t length = 0;
    for (int at = 3; !is_message && at < count; at++) names[length++] = (nuigatre_slice){(const uint8_t *)words[at], strlen(words[at])};
    nuigatre_answer answer = {0};
    for (size_t room = ROOM; ; room = answer.length) {
        uint8_t *out = sized(NULL, room);
        answer = called(words, count, a, b, names, length, out, room);
        freed(out);
        if (answer.length <= room) break;
    }
    printf("status %u, fault %u, %zu bytes at most\n", answer.status, answer.fault, most);
    return answer.status > 1;
}

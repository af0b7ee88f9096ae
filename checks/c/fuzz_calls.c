// Calls the functions of libnuigatre.a on damaged messages, modules and names, and compares each answer with what
// include/nuigatre.h says of it:
//
//     fuzz_calls CASES SEED WORLDS.json WORLD MAIN.wasm NAME=ADAPTER.wasm KEY
//
// Inputs and `out` end where a page begins that can't be read, or begin where one ends. Each case is asked with a
// buffer of random length, with exactly the room that its answer needs, with one byte less, and with an allocation that
// fails. An empty slice is passed as NULL now and then. The answers have to be the same, whatever the seed; the bytes that
// are not of an answer have to be as they were, and all memory has to be given back. A fault of a call on bytes has a text by
// its number. Of each call it is printed how many cases ended with each status, 0 to 5. The status is 1 where a case is wrong. Its number as SEED runs it again, first.
#include "nuigatre.h"

#include <inttypes.h>
#include <signal.h>
#include <stdio.h>
#include <stdlib.h>
#include <string.h>
#include <sys/mman.h>

#define CALLS 12
#define STATUSES 6
#define PAGE 4096u
// what an arena has room for
#define ROOM (1u << 20)

static const char *const names_of_calls[CALLS] = {
    "dedupe", "trim", "why", "world", "plan", "validate", "planned_world", "scan", "paths", "validated_module",
    "component_paths", "component_imports",
};

// The heap: the blocks that are held, and which allocation fails.

static long held, count_of_allocations, fails_at = -1;
static bool fails_alone;

static bool may_allocate(void) {
    long at = count_of_allocations++;
    return fails_at < 0 || (fails_alone ? at != fails_at : at < fails_at);
}

static nuigatre_allocated given(void *block) {
    static max_align_t none;
    nuigatre_allocated answer = {block != NULL, block != NULL ? block : (void *)&none};
    return answer;
}

nuigatre_allocated rattle_alloc(size_t size, size_t align) {
    if (!may_allocate() || align > 16) return given(NULL);
    held++;
    return given(malloc(size > 0 ? size : 1));
}

nuigatre_allocated rattle_realloc(void *block, size_t kept, size_t size, size_t align) {
    if (!may_allocate() || kept > size || align > 16) return given(NULL);
    return given(realloc(block, size > 0 ? size : 1));
}

void rattle_dealloc(void *block) {
    held--;
    free(block);
}

// Random numbers, and buffers.

static uint64_t state;

static uint64_t drawn(void) {
    state ^= state << 13;
    state ^= state >> 7;
    state ^= state << 17;
    return state * 0x2545f4914f6cdd1dull;
}

static size_t below(size_t bound) { return bound == 0 ? 0 : (size_t)(drawn() >> 11) % bound; }

static bool one_in(size_t count) { return below(count) == 0; }

typedef struct buffer {
    uint8_t *bytes;
    size_t length;
} buffer;

static uint8_t *new_bytes(size_t length) {
    uint8_t *bytes = (uint8_t *)malloc(length > 0 ? length : 1);
    if (bytes == NULL) exit(2);
    return bytes;
}

static buffer copy_of(const void *bytes, size_t length) {
    buffer made = {new_bytes(length), length};
    if (length > 0) memcpy(made.bytes, bytes, length);
    return made;
}

static buffer read_file(const char *path) {
    FILE *file = fopen(path, "rb");
    if (file == NULL) {
        perror(path);
        exit(2);
    }
    buffer made = {new_bytes(ROOM / 4), 0};
    made.length = fread(made.bytes, 1, ROOM / 4, file);
    fclose(file);
    return made;
}

// Puts bytes in the place of some.
static void splice(buffer *of, size_t at, size_t gone, const uint8_t *bytes, size_t more) {
    buffer made = {new_bytes(of->length - gone + more), of->length - gone + more};
    memcpy(made.bytes, of->bytes, at);
    if (more > 0) memcpy(made.bytes + at, bytes, more);
    memcpy(made.bytes + at + more, of->bytes + at + gone, of->length - at - gone);
    free(of->bytes);
    *of = made;
}

// Between pages that can't be read: so many bytes at the one end or the other; NULL for none, now and then.
typedef struct arena {
    uint8_t *start;
} arena;

static arena arenas[5];

static void make_arenas(void) {
    for (size_t at = 0; at < sizeof arenas / sizeof *arenas; at++) {
        void *all = mmap(NULL, ROOM + 2 * PAGE, PROT_NONE, MAP_PRIVATE | MAP_ANONYMOUS, -1, 0);
        if (all == MAP_FAILED || mprotect((uint8_t *)all + PAGE, ROOM, PROT_READ | PROT_WRITE) != 0) exit(2);
        arenas[at].start = (uint8_t *)all + PAGE;
    }
}

static uint8_t *place_in(size_t arena, size_t length) {
    if (length > ROOM) exit(2);
    if (length == 0 && one_in(2)) return NULL;
    return arenas[arena].start + (one_in(2) ? 0 : ROOM - length);
}

static const uint8_t *placed(size_t arena, buffer of) {
    uint8_t *at = place_in(arena, of.length);
    if (of.length > 0) memcpy(at, of.bytes, of.length);
    return at;
}

// Damage.

static void damage_bytes(buffer *of) {
    size_t at = below(of->length + 1), rest = of->length - at;
    uint8_t byte = one_in(3) ? (uint8_t)below(8) : (uint8_t)drawn();
    switch (below(5)) {
    case 0:
        splice(of, at, 0, &byte, 1);
        break;
    case 1:
        splice(of, at, below(rest < 9 ? rest + 1 : 9), NULL, 0);
        break;
    case 2:
        if (one_in(4)) splice(of, at, rest, NULL, 0);
        break;
    default:
        if (rest > 0) splice(of, at, 1, &byte, 1);
    }
}

// Where a text between quotes begins and ends, after a position.
static bool find_text(const buffer *of, size_t from, size_t *start, size_t *end) {
    const uint8_t *first = from < of->length ? (const uint8_t *)memchr(of->bytes + from, '"', of->length - from) : NULL;
    if (first == NULL) return false;
    *start = (size_t)(first - of->bytes) + 1;
    const uint8_t *last = (const uint8_t *)memchr(of->bytes + *start, '"', of->length - *start);
    if (last == NULL) return false;
    *end = (size_t)(last - of->bytes);
    return true;
}

static void damage_text(buffer *of) {
    size_t start, end, other_start, other_end, at = below(of->length);
    switch (below(4)) {
    case 0:
        damage_bytes(of);
        break;
    case 1:
        while (at < of->length && (of->bytes[at] < '0' || of->bytes[at] > '9')) at++;
        if (at < of->length) of->bytes[at] = (uint8_t)('0' + below(10));
        break;
    default:
        // one text becomes another one
        if (find_text(of, at, &start, &end) && find_text(of, below(of->length), &other_start, &other_end)) {
            buffer other = copy_of(of->bytes + other_start, other_end - other_start);
            splice(of, start, end - start, other.bytes, other.length);
            free(other.bytes);
        }
    }
}

// A case: what is asked.

typedef struct question {
    size_t call;
    buffer message, modules, name, required, names[3];
    size_t name_count;
    bool has_name;
    uint32_t page_size_log2;
} question;

typedef struct example {
    buffer worlds, modules[2];
    const char *world, *adapter, *key;
} example;

static buffer text_of(const char *text) { return copy_of(text, strlen(text)); }

// Imports `f` of `a` three times, and `g` of `b` twice.
static const uint8_t repeats[] = {
    0, 'a', 's', 'm', 1, 0, 0, 0, 1, 4, 1, 0x60, 0, 0, 2, 31, 5,
    1, 'a', 1, 'f', 0, 0, 1, 'a', 1, 'f', 0, 0, 1, 'b', 1, 'g', 0, 0, 1, 'a', 1, 'f', 0, 0, 1, 'b', 1, 'g', 0, 0,
};

static buffer message_of(const example *of, buffer worlds, const size_t lengths[2]) {
    static const char form[] =
        "{\"resolve\":%.*s,\"world\":\"%s\",\"length\":%zu,\"task_hook\":null,\"adapters\":[{\"name\":\"%s\","
        "\"length\":%zu,\"exports\":[\"%s\"]}],\"options\":[{\"name\":\"f\",\"memory\":true}]}";
    size_t room = worlds.length + sizeof form + strlen(of->world) + strlen(of->adapter) + strlen(of->key) + 64;
    buffer made = {new_bytes(room), 0};
    const char *text = (const char *)worlds.bytes;
    int length = snprintf((char *)made.bytes, room, form, (int)worlds.length, text, of->world, lengths[0], of->adapter,
                          lengths[1], of->key);
    made.length = (size_t)length;
    return made;
}

// The number of a call on bytes, for nuigatre_fault_text; negative for other calls.
static int number_of(size_t call) {
    return call < 3 ? (int)call : call == 7 ? NUIGATRE_SCAN_CALL : call == 8 ? NUIGATRE_PATHS_CALL : -1;
}

static question make_question(const example *of) {
    // those of the adapter of examples/wcplan, and none; and what asks for its imports
    static const char *const exports[] = {"length_of", "read_text", "is-ready", "length_of", "read_text", ""};
    static const char *const imports[] = {"__main_module__", "env=memory", "notes:store/notes", "=", "other"};
    // what a key of paths asks about
    static const char *const keys[] = {"all", "$root", "my:notes/store", "my:notes", "other"};
    // what is required of an adapter: nothing, or `f` without parameters and results
    static const uint8_t required[] = {1, 1, 'f', 0x60, 0, 0};
    question made;
    memset(&made, 0, sizeof made);
    made.call = below(CALLS);
    made.required = one_in(2) ? copy_of("", 1) : copy_of(required, sizeof required);
    if (one_in(4)) damage_bytes(&made.required);
    buffer modules[2];
    for (size_t at = 0; at < 2; at++) {
        bool repeat = at == 1 && made.call == 0 && one_in(2);
        modules[at] = repeat ? copy_of(repeats, sizeof repeats)
                             : copy_of(of->modules[at].bytes, of->modules[at].length);
        for (size_t more = one_in(2) ? 0 : 1 + below(3); more > 0; more--) damage_bytes(&modules[at]);
    }
    if (number_of(made.call) >= 0) {
        made.modules = copy_of(modules[1].bytes, modules[1].length);
        made.name_count = below(4);
        for (size_t at = 0; at < made.name_count; at++) {
            bool asks = made.call == 8 && at > 0;
            made.names[at] = text_of(asks ? imports[below(sizeof imports / sizeof *imports)]
                                          : exports[below(sizeof exports / sizeof *exports)]);
            if (one_in(8)) damage_bytes(&made.names[at]);
        }
    } else {
        size_t lengths[2] = {modules[0].length, modules[1].length};
        buffer worlds = copy_of(of->worlds.bytes, of->worlds.length);
        for (size_t more = one_in(2) ? 0 : 1 + below(3); more > 0; more--) damage_text(&worlds);
        made.message = message_of(of, worlds, lengths);
        if (one_in(4)) damage_text(&made.message);
        made.modules = copy_of(modules[0].bytes, modules[0].length);
        splice(&made.modules, made.modules.length, 0, modules[1].bytes, modules[1].length);
        free(worlds.bytes);
    }
    made.has_name = one_in(2);
    made.name = text_of(one_in(4) ? "" : made.call == 5 || made.call == 9 ? of->adapter : "cabi_realloc");
    if (made.call == 10) {
        free(made.name.bytes);
        made.name = text_of(keys[below(sizeof keys / sizeof *keys)]);
    }
    if (one_in(8)) damage_bytes(&made.name);
    made.page_size_log2 = one_in(8) ? (uint32_t)drawn() : 16;
    free(modules[0].bytes);
    free(modules[1].bytes);
    return made;
}

static void drop_question(question *of) {
    free(of->message.bytes);
    free(of->modules.bytes);
    free(of->name.bytes);
    free(of->required.bytes);
    for (size_t at = 0; at < of->name_count; at++) free(of->names[at].bytes);
}

// Asks, with a buffer of this length, which has a pattern of bytes before.

static uint8_t *out;
static uint8_t before[ROOM];

static nuigatre_answer ask(const question *of, size_t room) {
    uint64_t seed0 = drawn(), seed1 = drawn();
    const uint8_t *message = placed(0, of->message), *modules = placed(1, of->modules), *name = placed(2, of->name);
    nuigatre_slice names[3];
    for (size_t at = 0; at < of->name_count; at++) {
        names[at].bytes = of->names[at].length == 0 && one_in(2) ? NULL : of->names[at].bytes;
        names[at].length = of->names[at].length;
    }
    const nuigatre_slice *required = (const nuigatre_slice *)place_in(3, sizeof *names * of->name_count);
    if (of->name_count > 0) memcpy((void *)required, names, sizeof *names * of->name_count);
    out = place_in(4, room);
    for (size_t at = 0; at < room; at++) out[at] = before[at] = (uint8_t)(at * 7 + seed0);
    size_t message_length = of->message.length, modules_length = of->modules.length, name_length = of->name.length;
    count_of_allocations = 0;
    switch (of->call) {
    case 0:
        return nuigatre_dedupe(modules, modules_length, out, room);
    case 1:
        return nuigatre_trim(seed0, seed1, modules, modules_length, required, of->name_count, of->has_name, name,
                             name_length, of->page_size_log2, out, room);
    case 2:
        return nuigatre_why(seed0, seed1, modules, modules_length, required, of->name_count, out, room);
    case 3:
        return nuigatre_world(seed0, seed1, message, message_length, modules, modules_length, out, room);
    case 4:
        return nuigatre_plan(seed0, seed1, message, message_length, modules, modules_length, out, room);
    case 6:
        return nuigatre_planned_world(seed0, seed1, message, message_length, modules, modules_length, out, room);
    case 7:
        return nuigatre_scan(modules, modules_length, out, room);
    case 8: {
        // the first name is that of an export, unless there are three
        size_t exports_length = of->name_count % 3 > 0 ? 1 : 0;
        return nuigatre_paths(seed0, seed1, modules, modules_length, required, exports_length, required + exports_length,
                              of->name_count - exports_length, out, room);
    }
    case 9: {
        const uint8_t *functions = placed(3, of->required);
        return nuigatre_validated_module(seed0, seed1, message, message_length, modules, modules_length, of->has_name, name,
                                         name_length, functions, of->required.length, out, room);
    }
    case 10:
        return nuigatre_component_paths(seed0, seed1, message, message_length, modules, modules_length, name, name_length, out,
                                        room);
    case 11:
        return nuigatre_component_imports(seed0, seed1, message, message_length, modules, modules_length, out, room);
    default:
        return nuigatre_validate(seed0, seed1, message, message_length, modules, modules_length, of->has_name, name,
                                 name_length, out, room);
    }
}

// Whether the bytes from a position on are as they were.
static bool is_kept(size_t from, size_t room) {
    return from >= room || memcmp(out + from, before + from, room - from) == 0;
}

// What is wrong with an answer by itself; NULL for nothing.
static const char *wrong_by_itself(size_t call, nuigatre_answer a, size_t room) {
    bool has_bytes = a.status == NUIGATRE_DONE || a.status == NUIGATRE_TOO_SMALL;
    bool is_written = (a.status == NUIGATRE_DONE || a.status == NUIGATRE_FAULT) && a.length <= room;
    if (held != 0) return "blocks that were not given back";
    if (a.status >= STATUSES) return "no such status";
    if (!is_kept(is_written ? a.length : 0, room)) return "bytes that are not as they were";
    if (a.status == NUIGATRE_DONE && a.length > room) return "done without room";
    if (a.status == NUIGATRE_TOO_SMALL && a.length <= room) return "too small with room";
    if (a.status != NUIGATRE_FAULT && (a.fault != 0 || a.position != 0)) return "a fault of an answer that is none";
    if (a.status == NUIGATRE_FAULT && a.fault == 0) return "a fault of the number 0";
    if (!has_bytes && a.module_length != 0) return "modules of an answer without bytes";
    if (!has_bytes && a.status != NUIGATRE_FAULT && a.length != 0) return "a length of an answer without bytes";
    if (a.module_length > a.length) return "more modules than bytes";
    if (a.status == NUIGATRE_SAME && call != 0) return "the same of another call";
    if (number_of(call) < 0 && a.position > a.length) return "a text that is longer than all";
    return NULL;
}

// What is wrong with an answer beside an earlier one of the same question.
static const char *wrong_beside(nuigatre_answer a, nuigatre_answer b, const buffer *bytes, size_t room) {
    bool has_room = b.length <= room;
    uint32_t status = b.status == NUIGATRE_TOO_SMALL && has_room ? (uint32_t)NUIGATRE_DONE
                      : b.status == NUIGATRE_DONE && !has_room   ? (uint32_t)NUIGATRE_TOO_SMALL
                                                                 : b.status;
    if (a.status != status || a.fault != b.fault || a.length != b.length) return "another answer";
    if (a.module_length != b.module_length || a.position != b.position) return "another part of an answer";
    if (bytes->length > 0 && has_room && memcmp(out, bytes->bytes, bytes->length) != 0) return "other bytes";
    return NULL;
}

// What is wrong with the text of a fault of a call on bytes; NULL for nothing.
static const char *wrong_text(uint32_t call, uint32_t number) {
    uint8_t text[64];
    nuigatre_answer asked = nuigatre_fault_text(call, number, NULL, 0);
    if (asked.status != NUIGATRE_TOO_SMALL || asked.length == 0 || asked.length > sizeof text) return "a fault without a text";
    nuigatre_answer given = nuigatre_fault_text(call, number, text, asked.length);
    if (given.status != NUIGATRE_DONE || given.length != asked.length) return "another text of a fault";
    nuigatre_answer none = nuigatre_fault_text(call, number + (1u << 16), text, sizeof text);
    if (none.status != NUIGATRE_NO_SUCH_FAULT || none.length != 0) return "the text of no fault";
    return held == 0 ? NULL : "blocks of a text that were not given back";
}

static size_t counts[CALLS][STATUSES];

// Asks a question in all ways; what is wrong, or NULL.
static const char *wrong_with(const question *of) {
    size_t room = one_in(4) ? below(16) : below(one_in(2) ? 600 : 6000);
    nuigatre_answer first = ask(of, room);
    const char *wrong = wrong_by_itself(of->call, first, room);
    if (wrong != NULL) return wrong;
    long allocations = count_of_allocations;
    int bytes_call = number_of(of->call);
    if (bytes_call >= 0 && first.status == NUIGATRE_FAULT && (wrong = wrong_text((uint32_t)bytes_call, first.fault)) != NULL)
        return wrong;
    nuigatre_answer full = ask(of, first.length);
    if ((wrong = wrong_by_itself(of->call, full, first.length)) != NULL) return wrong;
    counts[of->call][full.status]++;
    buffer bytes = copy_of(out, full.length);
    wrong = wrong_beside(full, first, &bytes, first.length);
    if (wrong == NULL) {
        nuigatre_answer again = ask(of, room);
        if ((wrong = wrong_by_itself(of->call, again, room)) == NULL) wrong = wrong_beside(again, full, &bytes, room);
    }
    if (wrong == NULL && full.length > 0) {
        size_t less = full.length - 1;
        nuigatre_answer shorter = ask(of, less);
        wrong = wrong_by_itself(of->call, shorter, less);
        if (wrong == NULL) wrong = wrong_beside(shorter, full, &bytes, less);
    }
    if (wrong == NULL && allocations > 0) {
        fails_at = (long)below((size_t)allocations);
        fails_alone = one_in(2);
        nuigatre_answer failed = ask(of, full.length);
        wrong = wrong_by_itself(of->call, failed, full.length);
        if (wrong == NULL && failed.status != NUIGATRE_MEMORY) wrong = wrong_beside(failed, full, &bytes, full.length);
        fails_at = -1;
    }
    free(bytes.bytes);
    return wrong;
}

static uint64_t current;

static void say_case(int signal) {
    printf("case %" PRIu64 ": signal %d\n", current, signal);
    fflush(stdout);
    _Exit(1);
}

int main(int count, char **words) {
    char *wasm = count == 8 ? strchr(words[6], '=') : NULL;
    if (wasm == NULL) {
        fputs("usage: fuzz_calls CASES SEED WORLDS.json WORLD MAIN.wasm NAME=ADAPTER.wasm KEY\n", stderr);
        return 2;
    }
    *wasm = '\0';
    example of = {read_file(words[3]), {read_file(words[5]), read_file(wasm + 1)}, words[4], words[6], words[7]};
    uint64_t cases = strtoull(words[1], NULL, 10), seed = strtoull(words[2], NULL, 10);
    make_arenas();
    signal(SIGSEGV, say_case);
    signal(SIGILL, say_case);
    for (uint64_t at = 0; at < cases; at++) {
        // each case from its own number, so that it can be run again alone
        current = seed + at;
        state = (current + 1) * 0x9e3779b97f4a7c15ull | 1;
        for (int turn = 0; turn < 8; turn++) drawn();
        question asked = make_question(&of);
        const char *wrong = wrong_with(&asked);
        if (wrong != NULL) {
            printf("case %" PRIu64 " of %s: %s\n", current, names_of_calls[asked.call], wrong);
            return 1;
        }
        drop_question(&asked);
    }
    for (size_t call = 0; call < CALLS; call++) {
        printf("%s:", names_of_calls[call]);
        for (size_t status = 0; status < STATUSES; status++) printf(" %zu", counts[call][status]);
        putchar('\n');
    }
    free(of.worlds.bytes);
    free(of.modules[0].bytes);
    free(of.modules[1].bytes);
    return 0;
}

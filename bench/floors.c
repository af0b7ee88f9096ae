/* Floors: work that a trim and a dedupe can hardly do without, in plain C, beside which bench/trimming.py measures wctrim.

       cc -O2 -o floors bench/floors.c
       ./floors trim IN OUT EXPORT..
       ./floors dedupe IN OUT

   Each writes the bytes and prints the lines of `wctrim` with these arguments, for the shapes that the script measures: of
   types of numbers, imported functions and one imported memory before them, functions, globals, and exports of these. A
   module is read once, and operators are passed over one after another. Names are hashed under a seed that is drawn from the
   system. Checked is what memory and the answer depend on in these shapes: indices are in range, names are ASCII, exports have
   different names, and those that are wanted are there. Not checked are lengths, types and blocks. A module for which this
   does not hold, or that has other sections or operators, ends the program with status 2; a file that can't be read or
   written, with status 1. */
#include <fcntl.h>
#include <stdint.h>
#include <stdlib.h>
#include <string.h>
#include <sys/random.h>
#include <sys/stat.h>
#include <unistd.h>

/* What both do: files, numbers, and names with their hashes. */

typedef const uint8_t *place;

static place input, input_end;

static void read_input(const char *path)
{
    struct stat status;
    int file = open(path, O_RDONLY);
    if (file < 0 || fstat(file, &status) != 0)
        exit(1);
    uint8_t *bytes = malloc(status.st_size);
    if (read(file, bytes, status.st_size) != status.st_size)
        exit(1);
    input = bytes;
    input_end = bytes + status.st_size;
}

static int write_output(const char *path, place bytes, place end)
{
    int file = open(path, O_WRONLY | O_CREAT | O_TRUNC, 0644);
    return file < 0 || write(file, bytes, end - bytes) != end - bytes;
}

static inline uint32_t number(place *at)
{
    uint32_t byte = *(*at)++;
    if (byte < 128)
        return byte;
    uint32_t sum = byte & 127;
    for (int shift = 7;; shift += 7) {
        byte = *(*at)++;
        sum |= (byte & 127) << shift;
        if (byte < 128)
            return sum;
    }
}

static inline void skip_number(place *at)
{
    while (*(*at)++ & 128) {
    }
}

static inline uint8_t *put(uint8_t *out, uint32_t number)
{
    for (; number >= 128; number >>= 7)
        *out++ = number | 128;
    *out++ = number;
    return out;
}

static inline uint8_t *copied(uint8_t *out, const void *from, size_t size)
{
    memcpy(out, from, size);
    return out + size;
}

struct name {
    place text;
    uint32_t size;
};

static inline struct name name_at(place *at)
{
    uint32_t size = number(at);
    *at += size;
    return (struct name){*at - size, size};
}

/* The first eight bytes of a text as a number. */
static inline uint64_t word_at(place text)
{
    uint64_t word;
    memcpy(&word, text, 8);
    return word;
}

/* A number of the bytes of a text that has at most eight. */
static inline uint64_t short_word(place text, uint32_t size)
{
    uint32_t low, high;
    if (size < 4)
        return size ? text[0] | text[size / 2] << 8 | text[size - 1] << 16 : 0;
    memcpy(&low, text, 4);
    memcpy(&high, text + size - 4, 4);
    return (uint64_t)low << 32 | high;
}

static inline struct name checked_name_at(place *at)
{
    struct name name = name_at(at);
    place text = name.text;
    uint64_t all = 0;
    uint32_t size = name.size;
    for (; size > 8; size -= 8, text += 8)
        all |= word_at(text);
    if ((all | short_word(text, size)) & 0x8080808080808080)
        exit(2);
    return name;
}

static inline uint8_t *put_text(uint8_t *out, struct name name)
{
    return copied(out, name.text, name.size);
}

static inline int is_same(struct name one, struct name other)
{
    return one.size == other.size && memcmp(one.text, other.text, one.size) == 0;
}

static uint64_t seed[2];

static inline uint64_t folded(uint64_t one, uint64_t other)
{
    __uint128_t product = (__uint128_t)one * other;
    return (uint64_t)product ^ (uint64_t)(product >> 64);
}

/* A hash of a name and of what was hashed before: a product for each eight bytes. */
static inline uint64_t hash(uint64_t before, struct name name)
{
    place text = name.text;
    uint32_t size = name.size;
    uint64_t state = before ^ size;
    for (; size > 8; size -= 8, text += 8)
        state = folded(state ^ word_at(text), seed[1]);
    return folded(state ^ short_word(text, size), seed[1] ^ 0x9e3779b97f4a7c15);
}

/* Trimming */

/* What is after an operator's code. */
enum shape { NONE, NUMBER, CALL, GLOBAL, ACCESS, LABELS, FOUR_BYTES, EIGHT_BYTES, OTHER };

static uint8_t shapes[256];

static void make_shapes(void)
{
    memset(shapes + 0x20, NUMBER, 5);
    memset(shapes + 0x25, OTHER, 3);
    memset(shapes + 0x28, ACCESS, 0x3f - 0x28);
    memset(shapes + 0xfc, OTHER, 3);
    shapes[0x02] = shapes[0x03] = shapes[0x04] = shapes[0x0c] = shapes[0x0d] = shapes[0x41] = shapes[0x42] = NUMBER;
    shapes[0x10] = shapes[0xd2] = CALL;
    shapes[0x11] = shapes[0x3f] = shapes[0x40] = OTHER;
    shapes[0x23] = shapes[0x24] = GLOBAL;
    shapes[0x0e] = LABELS;
    shapes[0x43] = FOUR_BYTES;
    shapes[0x44] = EIGHT_BYTES;
}

/* The items of one kind: how many there are and how many of them are live, which these are, and their new indices. */
struct items {
    uint32_t held, live_count, *renumbered;
    uint8_t *is_live;
};

static struct items types, functions, globals;
/* where each begins, and where the last ends; of an export where its kind is */
static place *type_at, *import_at, *global_at, *body_at;
/* how many of them are memories (0 or 1), functions, and functions of the module's own */
static uint32_t memories, imported, own;
/* of each function, imported ones first */
static uint32_t *type_of;
static uint8_t is_memory_live;

static struct export {
    struct name name;
    place kind;
    uint8_t is_wanted;
} *exports;
static uint32_t export_count, *export_table, export_mask;

/* Functions and globals, which have the highest bit, in the order in which the search found them. */
#define IS_GLOBAL (1u << 31)
static uint32_t *found, found_count;

/* The place in the table of an export of this name, or of none. */
static inline uint32_t *export_of(struct name name)
{
    uint32_t at = hash(seed[0], name) & export_mask;
    while (export_table[at] && !is_same(exports[export_table[at] - 1].name, name))
        at = (at + 1) & export_mask;
    return export_table + at;
}

/* Goes past operators to the index that the next one of a function or a global has; at the end the shape is NONE. */
static inline place next_index(place at, place end, enum shape *shape)
{
    while (at < end) {
        switch (shapes[*at++]) {
        case CALL: *shape = CALL; return at;
        case GLOBAL: *shape = GLOBAL; return at;
        case NONE: break;
        case NUMBER: skip_number(&at); break;
        case FOUR_BYTES: at += 4; break;
        case EIGHT_BYTES: at += 8; break;
        case ACCESS:
            is_memory_live = 1;
            skip_number(&at);
            skip_number(&at);
            break;
        case LABELS:
            for (uint32_t left = number(&at) + 1; left > 0; left--)
                skip_number(&at);
            break;
        default: exit(2);
        }
    }
    *shape = NONE;
    return at;
}

static inline place after_init(place at)
{
    enum shape shape;
    while (*at != 0x0b) {
        at = next_index(at, at + 1, &shape);
        if (shape != NONE)
            skip_number(&at);
    }
    return at + 1;
}

static inline place after_locals(place at)
{
    for (uint32_t runs = number(&at); runs > 0; runs--) {
        skip_number(&at);
        at++;
    }
    return at;
}

static inline uint32_t index_at(place *at, uint32_t held)
{
    uint32_t index = number(at);
    if (index >= held)
        exit(2);
    return index;
}

static void read_types(place at)
{
    types.held = number(&at);
    type_at = malloc(sizeof *type_at * (types.held + 1));
    for (uint32_t i = 0; i < types.held; i++) {
        type_at[i] = at++;
        at += number(&at);
        at += number(&at);
    }
    type_at[types.held] = at;
}

static void read_imports(place at)
{
    uint32_t held = number(&at);
    import_at = malloc(sizeof *import_at * (held + 1));
    type_of = malloc(4 * held);
    for (uint32_t i = 0; i < held; i++) {
        import_at[i] = at;
        checked_name_at(&at);
        checked_name_at(&at);
        uint8_t kind = *at++;
        if (kind == 0) {
            type_of[imported++] = index_at(&at, types.held);
        } else if (kind == 2 && i == 0) {
            memories = 1;
            for (uint32_t limits = 1 + (*at++ & 1); limits > 0; limits--)
                skip_number(&at);
        } else {
            exit(2);
        }
    }
    import_at[held] = at;
}

static void read_functions(place at)
{
    own = number(&at);
    type_of = realloc(type_of, 4 * (imported + own));
    for (uint32_t i = 0; i < own; i++)
        type_of[imported + i] = index_at(&at, types.held);
}

static void read_globals(place at)
{
    globals.held = number(&at);
    global_at = malloc(sizeof *global_at * (globals.held + 1));
    for (uint32_t i = 0; i < globals.held; i++) {
        global_at[i] = at;
        at = after_init(at + 2);
    }
    global_at[globals.held] = at;
}

static void read_exports(place at)
{
    export_count = number(&at);
    exports = malloc(sizeof *exports * export_count);
    uint32_t size = 16;
    while (size < 2 * export_count)
        size *= 2;
    export_mask = size - 1;
    export_table = calloc(size, 4);
    for (uint32_t i = 0; i < export_count; i++) {
        struct name name = checked_name_at(&at);
        exports[i] = (struct export){name, at++, 0};
        skip_number(&at);
        uint32_t *entry = export_of(name);
        if (*entry)
            exit(2);
        *entry = i + 1;
    }
}

static void read_code(place at)
{
    if (number(&at) != own)
        exit(2);
    body_at = malloc(sizeof *body_at * own);
    for (uint32_t i = 0; i < own; i++) {
        body_at[i] = at;
        uint32_t size = number(&at);
        at += size;
    }
}

static void read_section(uint8_t id, place at)
{
    switch (id) {
    case 1: read_types(at); break;
    case 2: read_imports(at); break;
    case 3: read_functions(at); break;
    case 6: read_globals(at); break;
    case 7: read_exports(at); break;
    case 10: read_code(at); break;
    default: exit(2);
    }
}

static inline void find(enum shape shape, place *at)
{
    struct items *items = shape == CALL ? &functions : &globals;
    uint32_t index = index_at(at, items->held);
    if (!items->is_live[index]) {
        items->is_live[index] = 1;
        found[found_count++] = shape == CALL ? index : index | IS_GLOBAL;
    }
}

static void find_exports(char **words, int count)
{
    for (int i = 0; i < count; i++) {
        uint32_t *entry = export_of((struct name){(place)words[i], strlen(words[i])});
        if (!*entry)
            exit(2);
        struct export *export = exports + *entry - 1;
        export->is_wanted = 1;
        if (*export->kind != 0 && *export->kind != 3)
            exit(2);
        place index = export->kind + 1;
        find(*export->kind == 0 ? CALL : GLOBAL, &index);
    }
}

static void search(void)
{
    for (uint32_t taken = 0; taken < found_count; taken++) {
        uint32_t item = found[taken];
        place at, end;
        if (item & IS_GLOBAL) {
            at = global_at[item & ~IS_GLOBAL] + 2;
            end = global_at[(item & ~IS_GLOBAL) + 1];
        } else {
            types.is_live[type_of[item]] = 1;
            if (item < imported)
                continue;
            at = body_at[item - imported];
            uint32_t size = number(&at);
            end = at + size;
            at = after_locals(at);
        }
        enum shape shape;
        while (at = next_index(at, end, &shape), shape != NONE)
            find(shape, &at);
    }
}

static void begin_items(struct items *items)
{
    items->is_live = calloc(items->held + 1, 1);
    items->renumbered = malloc(4 * (items->held + 1));
}

static void renumber(struct items *items)
{
    for (uint32_t i = 0; i < items->held; i++) {
        items->renumbered[i] = items->live_count;
        items->live_count += items->is_live[i];
    }
}

/* Copies operators, with new indices. */
static inline uint8_t *put_operators(uint8_t *out, place from, place at, place end)
{
    enum shape shape;
    while (at = next_index(at, end, &shape), shape != NONE) {
        out = copied(out, from, at - from);
        uint32_t index = number(&at);
        out = put(out, (shape == CALL ? functions : globals).renumbered[index]);
        from = at;
    }
    return copied(out, from, end - from);
}

/* A body with its size and its locals: it is moved where its new size has another length. */
static inline uint8_t *put_body(uint8_t *out, place body)
{
    uint32_t size = number(&body);
    uint8_t *begin = out + (size < 1 << 7 ? 1 : size < 1 << 14 ? 2 : size < 1 << 21 ? 3 : 4);
    uint8_t *end = put_operators(begin, body, after_locals(body), body + size);
    uint8_t *moved = put(out, end - begin);
    if (moved != begin)
        memmove(moved, begin, end - begin);
    return moved + (end - begin);
}

/* The exports that are wanted: the last of all takes the place of each that is left out. */
static uint8_t *put_exports(uint8_t *out)
{
    uint32_t *order = malloc(4 * export_count), *position = malloc(4 * export_count), left = export_count;
    for (uint32_t i = 0; i < export_count; i++)
        order[i] = position[i] = i;
    for (uint32_t i = 0; i < export_count; i++) {
        if (!exports[i].is_wanted) {
            uint32_t last = order[--left];
            order[position[i]] = last;
            position[last] = position[i];
        }
    }
    out = put(out, left);
    for (uint32_t i = 0; i < left; i++) {
        struct export *export = exports + order[i];
        place index = export->kind + 1;
        out = put_text(put(out, export->name.size), export->name);
        *out++ = *export->kind;
        out = put(out, (*export->kind == 0 ? functions : globals).renumbered[number(&index)]);
    }
    return out;
}

static uint8_t *put_section(uint8_t *out, uint8_t id, place content, place end)
{
    *out++ = id;
    return copied(put(out, end - content), content, end - content);
}

static int write_trimmed(const char *path)
{
    size_t room = 2 * (input_end - input) + 4096;
    uint8_t *output = malloc(room), *out = copied(output, input, 8), *content = malloc(room), *end;
    uint32_t live_imports = 0;
    for (uint32_t i = 0; i < imported; i++)
        live_imports += functions.is_live[i];
    if (types.live_count) {
        end = put(content, types.live_count);
        for (uint32_t i = 0; i < types.held; i++)
            if (types.is_live[i])
                end = copied(end, type_at[i], type_at[i + 1] - type_at[i]);
        out = put_section(out, 1, content, end);
    }
    is_memory_live &= memories;
    if (live_imports + is_memory_live) {
        end = put(content, live_imports + is_memory_live);
        if (is_memory_live)
            end = copied(end, import_at[0], import_at[1] - import_at[0]);
        for (uint32_t i = 0; i < imported; i++) {
            if (functions.is_live[i]) {
                place from = import_at[memories + i], at = from;
                name_at(&at);
                name_at(&at);
                end = put(copied(end, from, at + 1 - from), types.renumbered[type_of[i]]);
            }
        }
        out = put_section(out, 2, content, end);
    }
    if (functions.live_count > live_imports) {
        end = put(content, functions.live_count - live_imports);
        for (uint32_t i = imported; i < functions.held; i++)
            if (functions.is_live[i])
                end = put(end, types.renumbered[type_of[i]]);
        out = put_section(out, 3, content, end);
    }
    if (globals.live_count) {
        end = put(content, globals.live_count);
        for (uint32_t i = 0; i < globals.held; i++)
            if (globals.is_live[i])
                end = put_operators(end, global_at[i], global_at[i] + 2, global_at[i + 1]);
        out = put_section(out, 6, content, end);
    }
    out = put_section(out, 7, content, put_exports(content));
    if (functions.live_count > live_imports) {
        end = put(content, functions.live_count - live_imports);
        for (uint32_t i = 0; i < own; i++)
            if (functions.is_live[imported + i])
                end = put_body(end, body_at[i]);
        out = put_section(out, 10, content, end);
    }
    return write_output(path, output, out);
}

static int trim(int count, char **words)
{
    make_shapes();
    read_input(words[0]);
    for (place at = input + 8; at < input_end;) {
        uint8_t id = *at++;
        uint32_t size = number(&at);
        read_section(id, at);
        at += size;
    }
    functions.held = imported + own;
    begin_items(&types);
    begin_items(&functions);
    begin_items(&globals);
    found = malloc(4 * (functions.held + globals.held));
    find_exports(words + 2, count - 2);
    search();
    renumber(&types);
    renumber(&functions);
    renumber(&globals);
    return write_trimmed(words[1]);
}

/* Renaming */

/* An import's name and its module's, as the module has them, and the least number that a new name of it may have: 0 where
   no import of it was written. */
struct original {
    struct name module, name;
    uint32_t next;
};

static struct original *originals;
static uint32_t original_count, original_mask = 63, *original_table;
/* what a new name has at its end at most: " [v", ten digits and "]" */
#define TAIL 14

/* The place in the table of an original, or of none. */
static inline uint32_t *original_of(struct name module, struct name name)
{
    uint32_t at = hash(hash(seed[0], module), name) & original_mask;
    for (; original_table[at]; at = (at + 1) & original_mask) {
        struct original *it = originals + original_table[at] - 1;
        if (is_same(it->name, name) && is_same(it->module, module))
            break;
    }
    return original_table + at;
}

/* Adds an original; a table that is half full is made anew, twice as large. */
static void add_original(uint32_t *entry, struct original it)
{
    originals[original_count] = it;
    *entry = ++original_count;
    if (2 * original_count <= original_mask)
        return;
    original_mask = 2 * original_mask + 1;
    free(original_table);
    original_table = calloc(original_mask + 1, 4);
    originals = realloc(originals, sizeof *originals * (original_mask + 1) / 2);
    for (uint32_t i = 0; i < original_count; i++)
        *original_of(originals[i].module, originals[i].name) = i + 1;
}

/* The import section, whether a name in it ends as new names do, and how long a name and its module's are at most. */
static place section_at, imports_from, imports_to;
static uint32_t import_count, longest;
static int is_some_numbered;

static void read_originals(void)
{
    for (place at = input + 8; at < input_end;) {
        place from = at;
        uint8_t id = *at++;
        uint32_t size = number(&at);
        if (id == 2) {
            section_at = from;
            imports_from = at;
            imports_to = at + size;
        }
        at += size;
    }
    originals = malloc(sizeof *originals * (original_mask + 1) / 2);
    original_table = calloc(original_mask + 1, 4);
    if (!section_at)
        exit(2);
    place at = imports_from;
    import_count = number(&at);
    for (uint32_t left = import_count; left > 0; left--) {
        struct name module = checked_name_at(&at), name = checked_name_at(&at);
        if (*at++ != 0)
            exit(2);
        skip_number(&at);
        uint32_t *entry = original_of(module, name);
        if (*entry)
            continue;
        is_some_numbered |= name.size && name.text[name.size - 1] == ']';
        if (longest < module.size + name.size)
            longest = module.size + name.size;
        add_original(entry, (struct original){module, name, 0});
    }
}

/* Writes the next new name of an original: `NAME [vN]`, which no import before this one has. An import after it may have it,
   and counts as a repeated one then. */
static inline struct name new_name(struct original *original, uint8_t *text)
{
    for (;;) {
        uint8_t digits[10], *digit = digits + sizeof digits;
        uint32_t left = original->next++;
        do {
            *--digit = '0' + left % 10;
            left /= 10;
        } while (left > 0);
        uint8_t *end = put_text(text, original->name);
        end = copied(end, " [v", 3);
        end = copied(end, digit, digits + sizeof digits - digit);
        *end++ = ']';
        struct name name = {text, end - text};
        uint32_t position = is_some_numbered ? *original_of(original->module, name) : 0;
        if (position == 0)
            return name;
        if (originals[position - 1].next == 0) {
            originals[position - 1].next = 2;
            return name;
        }
    }
}

static uint8_t lines[1 << 16], *line = lines;

static void print_lines(void)
{
    if (write(1, lines, line - lines) != line - lines)
        exit(1);
    line = lines;
}

/* Prints `MODULE: OLD -> NEW`; lines are handed on when they fill the buffer. */
static inline void print_rename(struct name module, struct name name, struct name renamed)
{
    if (module.size + name.size + renamed.size + 7 > (size_t)(lines + sizeof lines - line))
        print_lines();
    if (module.size + name.size + renamed.size + 7 > sizeof lines)
        exit(2);
    line = put_text(line, module);
    line = copied(line, ": ", 2);
    line = put_text(line, name);
    line = copied(line, " -> ", 4);
    line = put_text(line, renamed);
    *line++ = '\n';
}

static int dedupe(char **words)
{
    read_input(words[0]);
    read_originals();
    size_t room = (input_end - input) + 4096 + (size_t)import_count * 2 * TAIL;
    uint8_t *output = malloc(room), *content = copied(output, input, section_at - input), *text = malloc(longest + TAIL);
    /* six bytes are left for the section's id and size */
    uint8_t *begin = content + 6, *out = put(begin, import_count);
    place at = imports_from;
    number(&at);
    for (uint32_t left = import_count; left > 0; left--) {
        place from = at;
        struct name module = name_at(&at);
        place named = at;
        struct name name = name_at(&at);
        place rest = at++;
        skip_number(&at);
        struct original *original = originals + *original_of(module, name) - 1;
        if (original->next == 0) {
            original->next = 2;
            out = copied(out, from, at - from);
            continue;
        }
        struct name renamed = new_name(original, text);
        out = put(copied(out, from, named - from), renamed.size);
        out = copied(put_text(out, renamed), rest, at - rest);
        print_rename(module, name, renamed);
    }
    size_t size = out - begin;
    *content++ = 2;
    content = put(content, size);
    memmove(content, begin, size);
    out = copied(content + size, imports_to, input_end - imports_to);
    int failed = write_output(words[1], output, out);
    print_lines();
    return failed;
}

int main(int count, char **words)
{
    if (getrandom(seed, sizeof seed, 0) != sizeof seed)
        return 1;
    seed[1] |= 1;
    if (count > 4 && strcmp(words[1], "trim") == 0)
        return trim(count - 2, words + 2);
    if (count == 4 && strcmp(words[1], "dedupe") == 0)
        return dedupe(words + 2);
    return 2;
}

// Small programs in one file: sorting, hashing, text, matrices, long numbers, a machine that interprets.
#include <stdbool.h>
#include <stddef.h>
#include <stdint.h>

typedef struct {
    uint32_t key;
    int64_t value;
    double weight;
} entry;

static void swap(entry *a, entry *b) {
    entry it = *a;
    *a = *b;
    *b = it;
}

void sort(entry *entries, size_t count) {
    while (count > 1) {
        size_t low = 0, high = count - 1;
        uint32_t middle = entries[count / 2].key;
        while (low <= high) {
            while (entries[low].key < middle) low++;
            while (entries[high].key > middle) high--;
            if (low > high) break;
            swap(&entries[low++], &entries[high]);
            if (!high--) break;
        }
        sort(entries + low, count - low);
        count = high + 1;
        if (high == SIZE_MAX) break;
    }
}

uint32_t crc(const uint8_t *bytes, size_t size) {
    static uint32_t table[256];
    if (!table[1])
        for (uint32_t i = 0; i < 256; i++) {
            uint32_t it = i;
            for (int k = 0; k < 8; k++) it = it & 1 ? 0xedb88320u ^ it >> 1 : it >> 1;
            table[i] = it;
        }
    uint32_t it = ~0u;
    for (size_t i = 0; i < size; i++) it = table[(it ^ bytes[i]) & 255] ^ it >> 8;
    return ~it;
}

uint64_t hash(const uint8_t *bytes, size_t size) {
    uint64_t it = 0xcbf29ce484222325ull;
    for (size_t i = 0; i < size; i++) it = (it ^ bytes[i]) * 0x100000001b3ull;
    return it;
}

#define SLOTS 1024
static struct {
    uint64_t key;
    int32_t value;
    bool is_taken;
} slots[SLOTS];

bool put(uint64_t key, int32_t value) {
    for (size_t i = 0; i < SLOTS; i++) {
        size_t at = (key * 0x9e3779b97f4a7c15ull + i) % SLOTS;
        if (!slots[at].is_taken || slots[at].key == key) {
            slots[at].key = key;
            slots[at].value = value;
            slots[at].is_taken = true;
            return true;
        }
    }
    return false;
}

int32_t get(uint64_t key, int32_t otherwise) {
    for (size_t i = 0; i < SLOTS; i++) {
        size_t at = (key * 0x9e3779b97f4a7c15ull + i) % SLOTS;
        if (!slots[at].is_taken) return otherwise;
        if (slots[at].key == key) return slots[at].value;
    }
    return otherwise;
}

size_t base64(const uint8_t *from, size_t size, char *to) {
    static const char digits[] = "ABCDEFGHIJKLMNOPQRSTUVWXYZabcdefghijklmnopqrstuvwxyz0123456789+/";
    size_t made = 0;
    for (size_t i = 0; i < size; i += 3) {
        uint32_t it = from[i] << 16 | (i + 1 < size ? from[i + 1] << 8 : 0) | (i + 2 < size ? from[i + 2] : 0);
        to[made++] = digits[it >> 18];
        to[made++] = digits[it >> 12 & 63];
        to[made++] = i + 1 < size ? digits[it >> 6 & 63] : '=';
        to[made++] = i + 2 < size ? digits[it & 63] : '=';
    }
    return made;
}

int next_scalar(const uint8_t **at, const uint8_t *end) {
    const uint8_t *it = *at;
    if (it == end) return -1;
    int first = *it++, more = first < 0x80 ? 0 : first < 0xe0 ? 1 : first < 0xf0 ? 2 : 3;
    int scalar = more ? first & (0x3f >> more) : first;
    while (more-- && it < end && (*it & 0xc0) == 0x80) scalar = scalar << 6 | (*it++ & 0x3f);
    *at = it;
    return scalar;
}

double number(const char *text, const char **rest) {
    double it = 0, scale = 1;
    bool is_negative = *text == '-';
    text += is_negative;
    while (*text >= '0' && *text <= '9') it = it * 10 + (*text++ - '0');
    if (*text == '.')
        for (text++; *text >= '0' && *text <= '9'; text++) it += (*text - '0') * (scale *= 0.1);
    if (*text == 'e' || *text == 'E') {
        int power = 0;
        bool is_small = *++text == '-';
        text += is_small || *text == '+';
        while (*text >= '0' && *text <= '9' && power < 400) power = power * 10 + (*text++ - '0');
        while (power--) it = is_small ? it / 10 : it * 10;
    }
    *rest = text;
    return is_negative ? -it : it;
}

void multiply(size_t n, const double *a, const double *b, double *to) {
    for (size_t i = 0; i < n; i++)
        for (size_t k = 0; k < n; k++) {
            double it = 0;
            for (size_t j = 0; j < n; j++) it += a[i * n + j] * b[j * n + k];
            to[i * n + k] = it;
        }
}

void blend(size_t n, const float *a, const float *b, float share, float *to) {
    for (size_t i = 0; i < n; i++) to[i] = a[i] * share + b[i] * (1 - share);
}

uint32_t add_long(size_t n, const uint32_t *a, const uint32_t *b, uint32_t *to) {
    uint64_t carry = 0;
    for (size_t i = 0; i < n; i++) {
        carry += (uint64_t)a[i] + b[i];
        to[i] = (uint32_t)carry;
        carry >>= 32;
    }
    return (uint32_t)carry;
}

void multiply_long(size_t n, const uint32_t *a, const uint32_t *b, uint32_t *to) {
    for (size_t i = 0; i < 2 * n; i++) to[i] = 0;
    for (size_t i = 0; i < n; i++) {
        uint64_t carry = 0;
        for (size_t k = 0; k < n; k++) {
            carry += (uint64_t)a[i] * b[k] + to[i + k];
            to[i + k] = (uint32_t)carry;
            carry >>= 32;
        }
        to[i + n] = (uint32_t)carry;
    }
}

typedef enum { PUSH, ADD, SUB, MUL, DIV, DUP, DROP, SWAP, JUMP, JUMP_IF, LOAD, STORE, CALL, BACK, HALT } step;

int64_t interpret(const int32_t *code, size_t size, int64_t *cells, size_t cell_count) {
    int64_t stack[64];
    size_t depth = 0, at = 0, calls[32], call_depth = 0;
    for (uint32_t turns = 0; at < size && turns < 1000000; turns++) {
        int64_t top = depth ? stack[depth - 1] : 0, below = depth > 1 ? stack[depth - 2] : 0;
        switch ((step)code[at++]) {
        case PUSH:
            if (depth == 64 || at == size) return -1;
            stack[depth++] = code[at++];
            break;
        case ADD: case SUB: case MUL: case DIV: {
            if (depth < 2) return -2;
            step it = (step)code[at - 1];
            if (it == DIV && (!top || top == -1)) return -3;
            stack[--depth - 1] = it == ADD ? below + top : it == SUB ? below - top : it == MUL ? below * top : below / top;
            break;
        }
        case DUP:
            if (!depth || depth == 64) return -4;
            stack[depth++] = top;
            break;
        case DROP:
            if (!depth--) return -5;
            break;
        case SWAP:
            if (depth < 2) return -6;
            stack[depth - 1] = below;
            stack[depth - 2] = top;
            break;
        case JUMP_IF:
            if (!depth--) return -7;
            if (!top) {
                at++;
                break;
            }
            // falls through
        case JUMP:
            if (at >= size || code[at] < 0) return -8;
            at = (size_t)code[at];
            break;
        case LOAD:
            if (!depth || (uint64_t)top >= cell_count) return -9;
            stack[depth - 1] = cells[top];
            break;
        case STORE:
            if (depth < 2 || (uint64_t)top >= cell_count) return -10;
            cells[top] = below;
            depth -= 2;
            break;
        case CALL:
            if (at >= size || call_depth == 32) return -11;
            calls[call_depth++] = at + 1;
            at = (size_t)code[at];
            break;
        case BACK:
            if (!call_depth) return -12;
            at = calls[--call_depth];
            break;
        case HALT: return top;
        default: return -13;
        }
    }
    return -14;
}

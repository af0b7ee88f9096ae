// Functions of a few lines: numbers of each kind, branches, calls through a table, the memory's size.
#include <stdbool.h>
#include <stddef.h>
#include <stdint.h>

int32_t sum(int32_t a, int32_t b) { return a + b; }
uint64_t product(uint64_t a, uint64_t b) { return a * b; }
int64_t quotient(int64_t a, int64_t b) { return b ? a / b : -1; }
float half(float x) { return x * 0.5f; }
double cubed(double x) { return x * x * x - 1e-300; }
int32_t truncated(double x) { return (int32_t)x; }
uint64_t bits(double x) {
    uint64_t it;
    __builtin_memcpy(&it, &x, sizeof it);
    return it;
}
int32_t signs(int8_t a, int16_t b, int64_t c) { return a + b + (int32_t)c; }
int32_t counts(uint64_t x) { return __builtin_popcountll(x) + __builtin_clzll(x | 1) + __builtin_ctzll(x | 1); }
uint32_t turned(uint32_t x, int by) { return x << (by & 31) | x >> (-by & 31); }

static int32_t twice(int32_t x) { return x + x; }
static int32_t negated(int32_t x) { return -x; }
static int32_t squared(int32_t x) { return x * x; }
int32_t (*const steps[])(int32_t) = {twice, negated, squared, negated};
int32_t stepped(uint32_t which, int32_t x) { return steps[which & 3](x); }

int counter = 7;
double shares[16] = {0.25, 0.5};
const char *const greetings[] = {"hello", "good day", "\u00e9t\u00e9"};
const char *greeting(unsigned which) { return greetings[which % 3]; }
int counted(void) { return ++counter; }

int named(int which) {
    switch (which) {
    case 0: return 17;
    case 1: return -400;
    case 2: return 70000;
    case 3: return counter;
    case 4: return 12;
    case 5: return INT32_MIN;
    case 9: return INT32_MAX;
    case 10: return 3;
    default: return -1;
    }
}

uint32_t fibonacci(uint32_t n) { return n < 2 ? n : fibonacci(n - 1) + fibonacci(n - 2); }

size_t pages(void) { return __builtin_wasm_memory_size(0); }
size_t grown(size_t by) { return __builtin_wasm_memory_grow(0, by); }
_Noreturn void stop(void) { __builtin_trap(); }

__attribute__((import_module("host"), import_name("told"))) void told(const char *text, size_t size);
__attribute__((export_name("tell"))) void tell(void) { told(greetings[0], 5); }

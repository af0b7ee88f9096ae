// Atomic accesses, memory in bulk, and storage of a thread's own.
#include <stddef.h>
#include <stdint.h>

_Thread_local int own = 3;
int *own_place(void) { return &own; }
int own_value(void) { return own++; }

int32_t added(_Atomic int32_t *at) { return __c11_atomic_fetch_add(at, 5, __ATOMIC_SEQ_CST); }
uint8_t cleared(_Atomic uint8_t *at) { return __c11_atomic_fetch_and(at, 0xf0, __ATOMIC_SEQ_CST); }
uint16_t turned(_Atomic uint16_t *at) { return __c11_atomic_fetch_xor(at, 1, __ATOMIC_ACQ_REL); }
int64_t taken(_Atomic int64_t *at) { return __c11_atomic_fetch_sub(at, 1, __ATOMIC_RELAXED); }
int64_t exchanged(_Atomic int64_t *at, int64_t x) { return __c11_atomic_exchange(at, x, __ATOMIC_SEQ_CST); }
_Bool replaced(_Atomic int64_t *at, int64_t *was, int64_t x) { return __c11_atomic_compare_exchange_strong(at, was, x, __ATOMIC_SEQ_CST, __ATOMIC_SEQ_CST); }
int32_t loaded(_Atomic int32_t *at) { return __c11_atomic_load(at, __ATOMIC_ACQUIRE); }
void stored(_Atomic uint8_t *at) { __c11_atomic_store(at, 1, __ATOMIC_RELEASE); }
void fenced(void) { __c11_atomic_thread_fence(__ATOMIC_SEQ_CST); }

int waited(int *at) { return __builtin_wasm_memory_atomic_wait32(at, 1, -1); }
int waited_long(long long *at) { return __builtin_wasm_memory_atomic_wait64(at, 1, 1000); }
unsigned woken(int *at) { return __builtin_wasm_memory_atomic_notify(at, 1); }

void copied(char *to, const char *from, size_t size) { __builtin_memmove(to, from, size); }
void filled(char *to, size_t size) { __builtin_memset(to, 42, size); }

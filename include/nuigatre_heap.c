/* The memory of libnuigatre.a, over the C library: compile this file, and link it beside the library. A block of malloc and
 * realloc is aligned for whatever fits into it, so one of `align` bytes at least is aligned to `align`, up to 16 on 64-bit
 * Linux. */
#include "nuigatre.h"

#include <stdlib.h>

static nuigatre_allocated allocated(void *block) {
    /* where there is none, any pointer but NULL */
    static char none;
    nuigatre_allocated answer;
    answer.ok = block != NULL;
    answer.block = answer.ok ? block : (void *)&none;
    return answer;
}

static size_t larger(size_t size, size_t align) { return size > align ? size : align; }

nuigatre_allocated rattle_alloc(size_t size, size_t align) {
    return allocated(malloc(larger(size, align)));
}

nuigatre_allocated rattle_realloc(void *block, size_t kept, size_t size, size_t align) {
    (void)kept;
    return allocated(realloc(block, larger(size, align)));
}

void rattle_dealloc(void *block) { free(block); }

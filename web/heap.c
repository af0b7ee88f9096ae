/* The memory of nuigatre.wasm: what include/nuigatre_heap.c is where there is a C library.
 *
 * A block has 16 bytes in front of it, which say how large it is, and is aligned to 16. Sizes are of classes, four for each
 * power of two, so at most a fourth of a block is unused. Blocks that were given back are in a list for each class; others
 * come from the end of the memory, which grows up to a limit. The library gives all of its memory back at the end of a call:
 * once no block is used any more, all begins anew, so that no call depends on those before it.
 *
 * Addresses have 64 bits here, and 32 once wasm-opt has lowered them, so the limit is never above 4 GB.
 *
 * checks/c/web_heap.c tests this file, over a memory of its own (WEB_HEAP_TEST). */
typedef __SIZE_TYPE__ size_t;
typedef unsigned long long u64;
typedef unsigned __int128 u128;

typedef struct {
    _Bool ok;
    void *block;
} allocated;

enum { PAGE = 65536, HEAD = 16, CLASSES = 160 };
#define MOST ((size_t)0xffff0000)

#ifndef WEB_HEAP_TEST
extern unsigned char __heap_base;

static size_t first_free(void) { return (size_t)&__heap_base; }

static size_t memory_size(void) { return __builtin_wasm_memory_size(0) * PAGE; }

/* What memory.grow says where it is refused has 32 bits after wasm-opt, and 64 before. */
static _Bool memory_grow(size_t pages) { return (unsigned)__builtin_wasm_memory_grow(0, pages) != 0xffffffffu; }
#endif

struct free_block {
    struct free_block *next;
};

static struct free_block *lists[CLASSES];
/* where the memory begins that no block has yet, where all memory ends, and how many blocks are used */
static size_t top, end, used;
static size_t limit = MOST;

/* The class of the smallest blocks that have room for so many bytes. Sizes are counted in sixteens: from 1 to 7 each is a
 * class, and then 8, 10, 12, 14, 16, 20, 24, 28, 32, ..: so a size that is a power of two has a class of its own. */
static unsigned class_of(size_t size) {
    /* a block that is given back has room for the next one's address */
    size_t count = size ? (size + 15) / 16 : 1;
    unsigned shift = count < 8 ? 0 : 61 - (unsigned)__builtin_clzll(count);
    return shift * 4 + (unsigned)((count + ((size_t)1 << shift) - 1) >> shift);
}

/* How many bytes a block of a class takes, with those in front of it. */
static size_t size_of_class(unsigned class) {
    return HEAD + (class < 8 ? class * (size_t)16 : (size_t)(class % 4 + 4) << (class / 4 - 1 + 4));
}

static unsigned *class_at(void *block) { return (unsigned *)((unsigned char *)block - HEAD); }

/* Whether the memory, grown if need be, has so many bytes more after `top`. */
static _Bool has_room(size_t size) {
    if (size <= end - top) return 1;
    size_t pages = (size - (end - top) + PAGE - 1) / PAGE;
    if (end >= limit || pages > (limit - end) / PAGE || !memory_grow(pages)) return 0;
    end += pages * PAGE;
    return 1;
}

static void begin(void) {
    top = (first_free() + 15) & ~(size_t)15;
    end = memory_size();
    for (unsigned class = 0; class < CLASSES; class++) lists[class] = 0;
}

static void *block_of_class(unsigned class) {
    struct free_block *found = lists[class];
    if (found) {
        lists[class] = found->next;
        used++;
        return found;
    }
    if (!has_room(size_of_class(class))) return 0;
    void *block = (void *)(top + HEAD);
    *class_at(block) = class;
    top += size_of_class(class);
    used++;
    return block;
}

/* A block for what JavaScript passes to a call; NULL where there is no memory. */
void *nuigatre_alloc(size_t size) {
    if (!used) begin();
    return size > MOST ? 0 : block_of_class(class_of(size));
}

void nuigatre_free(void *block) {
    unsigned class = *class_at(block);
    ((struct free_block *)block)->next = lists[class];
    lists[class] = block;
    used--;
}

/* The memory does not grow beyond so many bytes from now on, whatever it has already. */
void nuigatre_limit(size_t size) { limit = size < MOST ? size : MOST; }

static allocated allocated_of(void *block) {
    allocated answer;
    answer.ok = block != 0;
    /* where there is none, any pointer but NULL */
    answer.block = block ? block : (void *)16;
    return answer;
}

allocated rattle_alloc(size_t size, size_t align) {
    (void)align;
    return allocated_of(nuigatre_alloc(size));
}

allocated rattle_realloc(void *block, size_t kept, size_t size, size_t align) {
    (void)align;
    if (size > MOST) return allocated_of(0);
    unsigned class = *class_at(block), wanted = class_of(size);
    if (wanted <= class) return allocated_of(block);
    size_t begins = (size_t)block - HEAD;
    /* the last block grows where it is, but only where no free one is as large: else none would be used that grew before */
    _Bool is_last = begins + size_of_class(class) == top;
    if (is_last && !lists[wanted] && has_room(size_of_class(wanted) - size_of_class(class))) {
        top = begins + size_of_class(wanted);
        *class_at(block) = wanted;
        return allocated_of(block);
    }
    void *larger = block_of_class(wanted);
    if (!larger) return allocated_of(0);
    __builtin_memcpy(larger, block, kept);
    nuigatre_free(block);
    return allocated_of(larger);
}

void rattle_dealloc(void *block) { nuigatre_free(block); }

/* Whether what is linked beside this was proved. */
#ifdef PROVED
int nuigatre_proved(void) { return PROVED; }
#endif

/* What clang calls for the product of two numbers of 128 bits, made of products of 32 bits. */
#ifdef WEB_HEAP_TEST
#define __multi3 product_of_128_bits
#endif
__int128 __multi3(__int128 a, __int128 b) {
    u64 a_low = (u64)a, a_high = (u64)((u128)a >> 64), b_low = (u64)b, b_high = (u64)((u128)b >> 64);
    u64 a0 = (unsigned)a_low, a1 = a_low >> 32, b0 = (unsigned)b_low, b1 = b_low >> 32;
    u64 p00 = a0 * b0, p01 = a0 * b1, p10 = a1 * b0, p11 = a1 * b1;
    u64 middle = (p00 >> 32) + (unsigned)p01 + (unsigned)p10;
    u64 low = (middle << 32) | (unsigned)p00;
    u64 high = p11 + (p01 >> 32) + (p10 >> 32) + (middle >> 32) + a_low * b_high + a_high * b_low;
    return (__int128)(((u128)high << 64) | low);
}

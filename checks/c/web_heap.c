/* Tests web/heap.c, the memory of nuigatre.wasm, over a region whose growth is refused at times: web_heap CASES SEED.
 *
 * Blocks of random sizes are asked for, made larger and given back. Each has to be aligned to 16, to lie in the memory, to
 * keep its bytes, and to share none with another; a growth that is refused leaves the block as it was. Once all are given
 * back, the next begins where the first did. Lists that grow, one after another or in turns, take at most twice the memory of
 * what there is at once. The status is 1 where something is otherwise. */
#include <stdint.h>
#include <stdio.h>
#include <stdlib.h>
#include <string.h>
#include <sys/mman.h>

#define WEB_HEAP_TEST
static unsigned char *region;
static size_t pages_now, pages_most;
static size_t first_free(void) { return (size_t)region + 1234; }
static size_t memory_size(void) { return (size_t)region + pages_now * 65536; }
static _Bool memory_grow(size_t pages) {
    if (pages > pages_most - pages_now) return 0;
    pages_now += pages;
    return 1;
}
#include "../../web/heap.c"

enum { BLOCKS = 200 };
static struct block {
    unsigned char *bytes, value;
    size_t size;
} blocks[BLOCKS];

static uint64_t state;
static uint64_t drawn(uint64_t below) {
    state = state * 6364136223846793005u + 1442695040888963407u;
    return (state >> 33) % below;
}

static void wrong(const char *what) {
    printf("%s\n", what);
    exit(1);
}

static int holds(const struct block *it) {
    for (size_t at = 0; at < it->size; at++)
        if (it->bytes[at] != it->value) return 0;
    return 1;
}

/* Fills a block anew; its bytes are checked before they change. So two blocks that shared a byte would be seen. */
static void fill(struct block *it, unsigned char *bytes, size_t size) {
    if ((size_t)bytes % 16) wrong("a block is not aligned to 16");
    if (bytes < region + 1234 || bytes + size > region + pages_now * 65536) wrong("a block is outside of the memory");
    it->bytes = bytes;
    it->size = size;
    it->value = (unsigned char)drawn(256);
    memset(bytes, it->value, size);
}

static size_t size_drawn(void) { return drawn(8) ? drawn(300) : drawn((uint64_t)1 << drawn(20)); }

static void step(struct block *it) {
    if (!it->bytes) {
        size_t size = size_drawn();
        allocated answer = rattle_alloc(size, 16);
        if (!answer.block) wrong("a pointer is NULL");
        if (answer.ok) fill(it, answer.block, size);
        return;
    }
    if (!holds(it)) wrong("a block has not kept its bytes");
    if (drawn(2)) {
        size_t size = size_drawn(), kept = it->size < size ? it->size : size;
        allocated answer = rattle_realloc(it->bytes, kept, size, 16);
        if (answer.ok) {
            for (size_t at = 0; at < kept; at++)
                if (((unsigned char *)answer.block)[at] != it->value) wrong("a larger block has not its bytes");
            fill(it, answer.block, size);
        } else if (!holds(it)) {
            wrong("a growth that is refused changed the block");
        }
    } else {
        rattle_dealloc(it->bytes);
        it->bytes = 0;
    }
}

static void round_of_steps(void) {
    pages_now = 1 + drawn(3);
    pages_most = pages_now + drawn(200);
    unsigned char *first = nuigatre_alloc(1);
    nuigatre_free(first);
    for (int count = 0; count < 2000; count++) step(&blocks[drawn(BLOCKS)]);
    for (int at = 0; at < BLOCKS; at++) {
        if (!blocks[at].bytes) continue;
        if (!holds(&blocks[at])) wrong("a block has not kept its bytes to the end");
        rattle_dealloc(blocks[at].bytes);
        blocks[at].bytes = 0;
    }
    unsigned char *again = nuigatre_alloc(1);
    if (again != first) wrong("memory that was given back is not used anew");
    nuigatre_free(again);
}

static void classes(void) {
    size_t before = 0;
    for (unsigned class = 1; class < 64; class++) {
        size_t size = size_of_class(class);
        if (size <= before) wrong("classes are not in order");
        if (class_of(size - HEAD) != class || class_of(size - HEAD + 1) != class + 1) wrong("a size is of another class");
        before = size;
    }
    if (class_of(MOST) >= CLASSES) wrong("there are sizes without a class");
}

static void limits(void) {
    pages_now = 1, pages_most = 1000;
    /* addresses are above 4 GB here, so nuigatre_limit has no use */
    limit = (size_t)region + 10 * 65536;
    void *small = nuigatre_alloc(4 * 65536);
    if (!small || nuigatre_alloc(6 * 65536) || pages_now > 10) wrong("the limit is not kept");
    if (rattle_realloc(small, 1, (size_t)-1, 16).ok || rattle_alloc((size_t)-1, 16).ok) wrong("a size beyond all memory");
    nuigatre_free(small);
    limit = (size_t)-1;
}

/* A list grows, as its owner asks. */
static void grow(struct block *it, size_t size) {
    allocated answer = it->bytes ? rattle_realloc(it->bytes, it->size, size, 16) : rattle_alloc(size, 16);
    if (!answer.ok) wrong("a list does not grow");
    it->bytes = answer.block;
    it->size = size;
}

static void drop(struct block *it) {
    rattle_dealloc(it->bytes);
    it->bytes = 0;
    it->size = 0;
}

/* Lists double up to `size`, as those of the library do, `together` of them in turns, and go in `rounds`; a small block of each
 * round stays, so that what comes next is after it. */
static void growth(int rounds, int together, size_t size) {
    size_t live = 0, most = 0;
    struct block kept[BLOCKS] = {{0}};
    pages_now = 1, pages_most = 1000;
    if (rounds > BLOCKS || together > BLOCKS) wrong("there are not so many blocks");
    unsigned char *first = nuigatre_alloc(1);
    for (int at = 0; at < rounds; at++) {
        for (size_t now = 16; now <= size; now *= 2) {
            for (int list = 0; list < together; list++) {
                live += now - blocks[list].size;
                grow(&blocks[list], now);
                if (live > most) most = live;
            }
        }
        grow(&kept[at], 24);
        live += 24;
        for (int list = 0; list < together; list++) {
            live -= blocks[list].size;
            drop(&blocks[list]);
        }
    }
    /* the bytes in front of blocks are of no list */
    size_t taken = top - (size_t)first;
    if (taken > 2 * most + 16384) {
        printf("%d rounds of %d lists of %zu bytes take %zu bytes, where there are %zu at once\n", rounds, together, size, taken, most);
        exit(1);
    }
    for (int at = 0; at < rounds; at++) drop(&kept[at]);
    nuigatre_free(first);
}

static void growths(void) {
    growth(1, 1, 1 << 20);
    growth(200, 1, 1 << 10);
    growth(200, 1, 1 << 16);
    growth(100, 1, 1 << 22);
    growth(50, 1, 3 << 20);
    growth(1, 2, 1 << 20);
    growth(100, 2, 1 << 16);
    growth(100, 3, 1 << 18);
    growth(20, 10, 1 << 16);
    growth(20, 100, 1 << 12);
}

static void products(void) {
    for (int count = 0; count < 100000; count++) {
        u128 a = 0, b = 0;
        for (int part = 0; part < 4; part++) a = a << 32 | drawn(1ull << 31) << drawn(2), b = b << 32 | drawn(1ull << 31) << drawn(2);
        if (!drawn(4)) a = (u128)0 - drawn(3);
        if ((u128)product_of_128_bits((__int128)a, (__int128)b) != a * b) wrong("a product is wrong");
    }
}

int main(int count, char **words) {
    long cases = count > 1 ? atol(words[1]) : 100;
    state = count > 2 ? (uint64_t)atol(words[2]) : 1;
    region = mmap(0, 1000 * 65536, PROT_READ | PROT_WRITE, MAP_PRIVATE | MAP_ANONYMOUS, -1, 0);
    if (region == MAP_FAILED) wrong("there is no memory for the test");
    classes();
    products();
    limits();
    growths();
    for (long at = 0; at < cases; at++) round_of_steps();
    printf("%ld rounds of 2000 steps, 10 of lists that grow, and 100000 products: all as wanted\n", cases);
    return 0;
}

/* The library's memory for tests: over the C library's, and where nuigatre_rows_refused is not 0 the growth of this number
 * gets none. Growths are counted from 1, from the call of nuigatre_rows_refuse on. It needs no header, so that each compiler of C
 * makes it. */
typedef __SIZE_TYPE__ size_t;

extern void *malloc(size_t size);
extern void *realloc(void *old, size_t size);
extern void free(void *block);

typedef struct {
    _Bool ok;
    void *block;
} allocated;

static unsigned long made, refused;

/* From here on the growth of this number is refused; none by 0. */
void nuigatre_rows_refuse(unsigned long number) {
    made = 0;
    refused = number;
}

/* How many growths were asked for since. */
unsigned long nuigatre_rows_made(void) { return made; }

static allocated answer(void *block) {
    static char none;
    allocated it;
    it.ok = block != (void *)0;
    it.block = it.ok ? block : (void *)&none;
    return it;
}

static size_t larger(size_t size, size_t align) { return size > align ? size : align; }

allocated rattle_alloc(size_t size, size_t align) {
    made += 1;
    return answer(made == refused ? (void *)0 : malloc(larger(size, align)));
}

allocated rattle_realloc(void *block, size_t kept, size_t size, size_t align) {
    (void)kept;
    made += 1;
    return answer(made == refused ? (void *)0 : realloc(block, larger(size, align)));
}

void rattle_dealloc(void *block) { free(block); }

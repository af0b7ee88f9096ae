/* Runs a program over and over, in processes of its own, with the first, second, .. allocation failing, and writes into
   REPORT_FILE a record for each: `run NUMBER STATUS ALLOCATIONS LENGTH`, and so many bytes that it printed.
   The number of the first is 0: none fails. failing-allocations.py loads it before the C library. */
#define _GNU_SOURCE
#include <signal.h>
#include <stdio.h>
#include <stdlib.h>
#include <sys/mman.h>
#include <sys/wait.h>
#include <unistd.h>

extern void *__libc_malloc(size_t size);
extern void *__libc_calloc(size_t count, size_t size);
extern void *__libc_realloc(void *old, size_t size);

static long none;
/* how many allocations were asked for, in memory that the child shares */
static long *made = &none;
static long failing = -1;

static int fails(void) {
    *made += 1;
    return *made == failing;
}

void *malloc(size_t size) { return fails() ? NULL : __libc_malloc(size); }
void *calloc(size_t count, size_t size) { return fails() ? NULL : __libc_calloc(count, size); }
void *realloc(void *old, size_t size) { return fails() ? NULL : __libc_realloc(old, size); }

static void report(FILE *file, long number, int status, char *printed, size_t length) {
    fprintf(file, "run %ld %d %ld %zu\n", number, status, *made, length);
    fwrite(printed, 1, length, file);
}

/* A run with the allocation of this number failing: the child returns, and does it. */
static int run(FILE *file, long number) {
    int ends[2], status = 0;
    size_t length = 0, room = 1 << 20;
    ssize_t got;
    *made = 0;
    if (pipe(ends))
        _exit(2);
    pid_t child = fork();
    if (child == 0) {
        dup2(ends[1], 1);
        dup2(ends[1], 2);
        close(ends[0]);
        close(ends[1]);
        alarm(SECONDS);
        failing = number;
        return 1;
    }
    close(ends[1]);
    char *printed = __libc_malloc(room);
    while ((got = read(ends[0], printed + length, room - length)) > 0)
        length += got;
    close(ends[0]);
    waitpid(child, &status, 0);
    report(file, number, status, printed, length);
    free(printed);
    return 0;
}

__attribute__((constructor)) static void begin(void) {
    const char *name = getenv("REPORT_FILE");
    if (!name)
        return;
    long most = atol(getenv("MOST")), spread = atol(getenv("SPREAD"));
    unsetenv("REPORT_FILE");
    FILE *file = fopen(name, "w");
    made = mmap(NULL, sizeof *made, PROT_READ | PROT_WRITE, MAP_SHARED | MAP_ANONYMOUS, -1, 0);
    setvbuf(file, __libc_malloc(1 << 16), _IOFBF, 1 << 16);
    fflush(file);
    if (run(file, 0))
        return;
    long count = *made, step = count > most ? (count + spread - 1) / spread : 1;
    for (long number = 1; number <= count; number += step) {
        fflush(file);
        if (run(file, number))
            return;
    }
    fclose(file);
    _exit(0);
}

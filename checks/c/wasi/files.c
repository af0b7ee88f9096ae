// A program that reads a file and the clock, and prints; with a realloc of its own.
#include <stdio.h>
#include <stdlib.h>
#include <time.h>

__attribute__((export_name("cabi_realloc"))) void *cabi_realloc(void *old, size_t old_size, size_t align, size_t size) {
    (void)old_size;
    (void)align;
    return realloc(old, size);
}

int main(int count, char **arguments) {
    char line[99] = "";
    FILE *file = fopen(count > 1 ? arguments[1] : "input", "r");
    if (file) {
        fgets(line, sizeof line, file);
        fclose(file);
    }
    printf("%s %ld %s\n", line, (long)time(0), getenv("HOME"));
    return 0;
}

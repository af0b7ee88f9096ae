// A program over the C library.
#include <math.h>
#include <stdio.h>
#include <stdlib.h>
#include <string.h>

static int by_length(const void *a, const void *b) {
    return (int)strlen(*(char *const *)a) - (int)strlen(*(char *const *)b);
}

int main(int count, char **words) {
    qsort(words, (size_t)count, sizeof *words, by_length);
    for (int i = 0; i < count; i++) printf("%d: %s, %.3f\n", i, words[i], sqrt(strlen(words[i])));
    char *text = malloc(64);
    if (!text) return 1;
    snprintf(text, 64, "%lld %e", strtoll("-42", NULL, 0), strtod("1e9", NULL));
    puts(text);
    free(text);
    return 0;
}

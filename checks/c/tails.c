// Calls in tail position.
#include <stdbool.h>

typedef unsigned step(unsigned count, unsigned so_far);
extern step *const steps[2];
unsigned odd(unsigned count, unsigned so_far);

unsigned even(unsigned count, unsigned so_far) {
    if (!count) return so_far;
    __attribute__((musttail)) return odd(count - 1, so_far + 1);
}
unsigned odd(unsigned count, unsigned so_far) {
    if (!count) return so_far * 2;
    __attribute__((musttail)) return steps[count & 1](count - 1, so_far ^ 3);
}
step *const steps[2] = {even, odd};

// Functions of several results.
typedef struct {
    int first;
    long long second;
    double third;
} triple;

triple made(int a) { return (triple){a, a * 7ll, a * 0.5}; }
triple turned(triple it) { return (triple){(int)it.second, it.first, -it.third}; }
double total(int a) {
    triple it = turned(made(a));
    return it.first + it.second + it.third;
}
triple chosen(int a) { return a > 3 ? made(a) : turned(made(a + 1)); }

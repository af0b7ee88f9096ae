// Exceptions, which the format read here does not have.
struct fault {
    int code;
};
void risky(int);
int tried(int x) {
    try {
        risky(x);
        return 0;
    } catch (const fault &it) {
        return it.code;
    }
}

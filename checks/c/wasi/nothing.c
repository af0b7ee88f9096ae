// A program that uses nothing of its adapter but its start and its end.
int main(void) { return 0; }

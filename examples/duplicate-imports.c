// Two language runtimes linked into one module. Each declares the host function `log` of `env` for itself,
// and the two declarations differ in type, so that the linked module imports (env, log) twice.

// The first runtime hands over an address and a length.
__attribute__((import_module("env"), import_name("log")))
void first_log(const char *text, unsigned long length);

// The second runtime hands over a level too, and gets a status back.
__attribute__((import_module("env"), import_name("log")))
int second_log(int level, const char *text, unsigned long length);

__attribute__((export_name("greet")))
int greet(void) {
  first_log("hello", 5);
  return second_log(1, "world", 5);
}

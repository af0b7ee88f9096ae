// Prints how many different words standard input has. A component of this program imports random numbers: `new_set` takes a
// random seed for its hashes, so that nobody can choose words that collide.
#define IMPORT(module, name) __attribute__((import_module(module), import_name(name)))
#define EXPORT(name) __attribute__((export_name(name)))
typedef unsigned char u8;
typedef unsigned long long u64;

// The result of `blocking-read`: whether it failed, and if not, the bytes.
struct read {
  u8 failed;
  const u8 *bytes;
  unsigned length;
};

IMPORT("wasi:random/random@0.2.6", "get-random-u64") u64 get_random_u64(void);
IMPORT("wasi:cli/stdin@0.2.6", "get-stdin") int get_stdin(void);
IMPORT("wasi:cli/stdout@0.2.6", "get-stdout") int get_stdout(void);
IMPORT("wasi:io/streams@0.2.6", "[method]input-stream.blocking-read") void blocking_read(int, u64, struct read *);
IMPORT("wasi:io/streams@0.2.6", "[method]output-stream.blocking-write-and-flush")
void blocking_write(int, const u8 *, unsigned, int[3]);

// Where the host puts the bytes that it reads.
static u8 room[4096];

EXPORT("cabi_realloc") void *cabi_realloc(void *old, unsigned old_size, unsigned align, unsigned size) {
  (void)old, (void)old_size, (void)align;
  if (size > sizeof room) __builtin_trap();
  return room;
}

// A set of words, by their hashes. An entry of 0 is empty.
static struct {
  u64 seed;
  unsigned count;
  u64 hashes[65536];
} set;

static void new_set(void) { set.seed = get_random_u64(); }

// Adds a hash, unless the set is full.
static void add(u64 hash) {
  unsigned at = hash >> 48;
  while (set.hashes[at] && set.hashes[at] != hash) at = (at + 1) % 65536;
  if (!set.hashes[at] && set.count < 65535) {
    set.hashes[at] = hash;
    set.count++;
  }
}

static int read_input(int stream, struct read *read) {
  blocking_read(stream, sizeof room, read);
  return !read->failed;
}

static void count_words(void) {
  int stream = get_stdin();
  struct read read;
  u64 hash = 0;
  new_set();
  while (read_input(stream, &read))
    for (unsigned at = 0; at < read.length; at++)
      if (read.bytes[at] > ' ') {
        hash = ((hash ? hash : set.seed) ^ read.bytes[at]) * 0x9e3779b97f4a7c15;
      } else if (hash) {
        add(hash);
        hash = 0;
      }
  if (hash) add(hash);
}

static void print_number(unsigned number) {
  u8 digits[11];
  unsigned at = 10;
  int result[3];
  digits[10] = '\n';
  do digits[--at] = '0' + number % 10;
  while (number /= 10);
  blocking_write(get_stdout(), digits + at, 11 - at, result);
}

EXPORT("wasi:cli/run@0.2.6#run") int run(void) {
  count_words();
  print_number(set.count);
  return 0;
}

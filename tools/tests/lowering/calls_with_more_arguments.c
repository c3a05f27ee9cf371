// Calls by pointer with more arguments than the function takes, as a table of functions with several shapes makes them.
#include <hippo.h>
#include <stddef.h>

struct pair { long first, second; };
struct block { long words[5]; };

static int both(int a, int b) { return a * 10 + b; }
static int one(int a) { return a + 1; }
static int none(void) { return 77; }
static void nothing(void) { print_i64(-1); }

typedef int (*chosen)(int, int);
static const chosen table[] = {both, (chosen)one, (chosen)none};

static struct pair pair_of(long a, long b) { return (struct pair){a, b}; }
static struct pair pair_of_one(long a) { return (struct pair){a, -a}; }

typedef struct pair (*pair_maker)(long, long);
static const pair_maker makers[] = {pair_of, (pair_maker)pair_of_one};

static long of_block(struct block b, long c) {
  b.words[0] += c;
  return b.words[0] + b.words[4];
}
static long of_block_alone(struct block b) {
  b.words[0] += 5;
  return b.words[0];
}

typedef long (*block_reader)(struct block, long);
static const block_reader readers[] = {of_block, (block_reader)of_block_alone};

static long counted(int count, ...) {
  __builtin_va_list list;
  long sum = 0;
  __builtin_va_start(list, count);
  for (int i = 0; i < count; i++) {
    sum += __builtin_va_arg(list, long);
  }
  __builtin_va_end(list);
  return sum;
}
static long plain(int count) { return count * 1000; }

typedef long (*variadic)(int, ...);
static const variadic sums[] = {counted, (variadic)plain};

// External functions of hippo: with their own type, with more arguments, and beside others of the same type.
PERSISTENT static long kept;
static void no_flush(const void *at, size_t size) { print_i64(at == &kept ? (long long)size : -2); }
static void (*volatile flushes[])(const void *, size_t) = {pmem_persist, no_flush, (void (*)(const void *, size_t))pmem_drain,
                                                           (void (*)(const void *, size_t))nothing};
static long long negated(int a) { return -a; }
static long long (*volatile numbers[])(int) = {negated, (long long (*)(int))read_i64};

int main(void) {
  struct block block = {{1, 2, 3, 4, 5}};
  for (int i = 0; i < 3; i++) {
    print_i64(table[i](4, 5));
  }
  for (int i = 0; i < 2; i++) {
    struct pair made = makers[i](6, 7);
    print_i64(made.first * 100 + made.second);
    print_i64(readers[i](block, 1000));
    print_i64(sums[i](3, 5L, 6L, 7L));
    print_i64(numbers[i](9));
  }
  print_i64(block.words[0]);
  kept = 3;
  for (int i = 0; i < 4; i++) {
    flushes[i](&kept, sizeof kept);
  }
  return 0;
}

// Values of several pieces that loops carry, and calls by pointer inside them.
// input: 3 1 4 1 5 9 2 6 5 3
#include <hippo.h>
#include <stdint.h>

typedef unsigned __int128 wide;
struct pair { uint64_t a; uint32_t b; };
typedef struct pair (*step)(struct pair, int);

static wide horner(const uint64_t *from, int count) {
  wide sum = 1;
  for (int i = 0; i < count; i++) {
    sum = from[i] & 1 ? sum * 31 + from[i] : sum << (from[i] & 63);
  }
  return sum;
}

static struct pair up(struct pair p, int by) { return (struct pair){p.a + (uint64_t)by, p.b * 3}; }
static struct pair down(struct pair p, int by) { return (struct pair){p.b, (uint32_t)p.a - (uint32_t)by}; }
static struct pair walk(struct pair p, const step *steps, int count) {
  for (int i = 0; i < count; i++) {
    p = i % 3 == 2 ? p : steps[i & 1](p, i);
  }
  return p;
}

static int collatz(int n, int (*next)(int)) {
  int count = 0;
  while (n != 1) {
    n = n & 1 ? next(n) : n / 2;
    count++;
  }
  return count;
}

static int odd(int n) { return 3 * n + 1; }
static int other(int n) { return n - 1; }
static int hidden(int n) { __asm__("" : "+r"(n)); return n + 1; }
static void pmem_flush_range(void *p) { _mm_clwb(p); }

int main(void) {
  uint64_t numbers[9];
  for (int i = 0; i < 9; i++) {
    numbers[i] = 0x9e3779b97f4a7c15u * (uint64_t)(i + read_i64());
  }
  wide w = horner(numbers, 9);
  print_i64((long long)w);
  print_i64((long long)(w >> 64));
  static const step steps[] = {up, down};
  struct pair p = walk((struct pair){5, 7}, steps, 11);
  print_i64((long long)p.a);
  print_i64(p.b);
  print_i64(collatz(27, odd) + collatz(27, other) + hidden(4));
  pmem_flush_range(numbers);
  return 0;
}

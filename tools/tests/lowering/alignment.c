// Blocks at the alignment that clang states: it writes `p | 8` for `p + 8` where it knows that p is a multiple of 16.
// options: --array-bound 4K
#include <hippo.h>
#include <stdarg.h>
#include <stdint.h>
#include <stdlib.h>
#include <string.h>

typedef struct { _Alignas(16) long long a; long long b; } pair;
typedef struct { _Alignas(32) long long a; long long b, c, d; } four;
typedef struct { _Alignas(64) char bytes[64]; } line;

// A block of an odd size: what follows it is at no multiple of 16 unless something is done about it.
__attribute__((noinline)) static long long touch(long long *at) { return ++*at; }
__attribute__((noinline)) static void fill(long long *to, int count) {
  for (int i = 0; i < count; i++) to[i] = i + 1;
}

// The word at an address by the bits of its number, as clang may write it, and as the program does.
__attribute__((noinline)) static long long word_at(const void *block, uintptr_t bits) {
  return *(const long long *)((uintptr_t)block | bits);
}
#define SECOND(block) (*(const long long *)((uintptr_t)(block) + 8))

static long long arrays(void) {
  long long odd = 5, found = touch(&odd), two[2], three[3];
  char text[24];
  fill(two, 2);
  fill(three, 3);
  memset(text, 3, sizeof text);
  found = found * 31 + SECOND(two) + SECOND(three) + SECOND(text);
  return found * 31 + word_at(two, 8) + word_at(three, 8) + ((uintptr_t)two & 15) + ((uintptr_t)text & 15);
}

static long long wide(void) {
  long long odd = 1, found = touch(&odd);
  __int128 number = (__int128)7 << 64 | 8;
  fill((long long *)&number, 1);
  return found * 31 + SECOND(&number) + word_at(&number, 8);
}

__attribute__((noinline)) static long long passed(long long n, pair p, char c, four f, line l) {
  return n + SECOND(&p) * 3 + SECOND(&f) * 5 + *((const char *)((uintptr_t)&l + 9)) * 7 + c + word_at(&p, 8) * 11
      + word_at(&f, 24) * 13 + ((uintptr_t)&f & 31) + ((uintptr_t)&l & 63);
}

__attribute__((noinline)) static pair made(long long n) {
  pair p = {n, n + 1};
  return p;
}

static long long values(void) {
  long long odd = 2, found = touch(&odd);
  pair p = made(found);
  four f = {1, 2, 3, 4};
  line l;
  memset(&l, 6, sizeof l);
  pair both[2] = {p, made(9)};
  return passed(1, p, 2, f, l) * 31 + SECOND(&both[1]) + word_at(&both[1], 8);
}

__attribute__((noinline)) static long long variable(int count, ...) {
  long long odd = 3, found = touch(&odd);
  va_list list;
  va_start(list, count);
  for (int i = 0; i < count; i++) {
    pair p = va_arg(list, pair);
    __int128 n = va_arg(list, __int128);
    found = found * 31 + SECOND(&p) + word_at(&p, 8) + SECOND(&n);
  }
  va_end(list);
  return found;
}

static long long bounded(int n) {
  long long odd = 4, found = touch(&odd), numbers[n];
  char text[n];
  _Alignas(64) char aligned[n];
  fill(numbers, n);
  memset(text, 2, n);
  memset(aligned, 1, n);
  long long *more = __builtin_alloca(8 * n), *again = __builtin_alloca(8 * n + 8);
  fill(more, n);
  fill(again, n);
  found = found * 31 + SECOND(numbers) + SECOND(text) + SECOND(more) + word_at(again, 8);
  return found * 31 + ((uintptr_t)aligned & 63) + word_at(numbers, 8) + word_at(more, 8);
}

static long long heap(void) {
  long long found = 0;
  void *blocks[] = {malloc(17), calloc(3, 9), realloc(malloc(1), 40), strdup("a text of a number of bytes"), aligned_alloc(64, 64)};
  for (int i = 0; i < 5; i++) {
    fill(blocks[i], 2);
    found = found * 31 + SECOND(blocks[i]) + word_at(blocks[i], 8) + ((uintptr_t)blocks[i] & 15);
  }
  return found + ((uintptr_t)blocks[4] & 63);
}

__attribute__((noinline)) static long long deep(int n) {
  long long odd = n, two[2];
  fill(two, 2);
  long long found = touch(&odd) + SECOND(two) + word_at(two, 8);
  return n ? found * 3 + deep(n - 1) : found;
}

int main(void) {
  long long odd = read_i64();
  print_i64(touch(&odd));
  print_i64(arrays());
  print_i64(wide());
  print_i64(values());
  print_i64(variable(2, made(3), (__int128)4 << 64, made(5), (__int128)6 << 64));
  print_i64(bounded((int)read_i64() + 4));
  print_i64(heap());
  print_i64(deep(5));
  return 0;
}

// Weak functions, aliases, inline functions of both sorts, static data of one name in two files, undefined weak names.
// files: ../lowering_more/symbols_other.c
#include <hippo.h>

inline int plain_inline(int x) { return x * 3; }
extern inline int plain_inline(int x);
static inline int static_inline(int x) { return x * 5; }
__attribute__((weak)) int chosen(void) { return 1; }
__attribute__((weak)) int own(void) { return 2; }
extern int absent(void) __attribute__((weak));
extern int absent_number __attribute__((weak));
static int real(int x) { return x + 40; }
int other_name(int x) __attribute__((alias("real")));
int number = 17;
extern int number_too __attribute__((alias("number")));
static int hidden_state = 3;
int from_other(void);
__attribute__((visibility("hidden"))) void *malloc_like(void) { return &hidden_state; }
int (*pointer)(int) = other_name;

int main(void) {
  print_i64(plain_inline(4) + static_inline(5));
  print_i64(chosen() * 10 + own());
  print_i64(absent ? absent() : -1);
  print_i64(&absent_number ? absent_number : -2);
  number_too++;
  print_i64(other_name(number) + pointer(number));
  print_i64(from_other() + hidden_state);
  print_i64(*(int *)malloc_like());
  return 0;
}

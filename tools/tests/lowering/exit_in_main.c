// An end of the run in main, at a place where clang's block goes on: a declaration of one's own says nothing about it.
// input: 0 1 7 9
#include <hippo.h>

void leave(int code) __asm__("exit");

int main(void) {
  long long first = read_i64(), kept = first ? (leave(2), first + 1) : 5;
  print_i64(kept);
  long long second = read_i64(), other = second ? (leave(3), read_i64()) : read_i64();
  print_i64(other + (second ? kept : 2) + (first ? kept : other));
  return 4;
}

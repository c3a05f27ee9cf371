// A trap ends its block at each level; what stands after it does not run.
#include <hippo.h>

static long long checked(long long n) {
  long long kept = 1;
  if (n > 2) {
    print_i64(n);
    if (n > 100) {
      __builtin_trap();
    }
    kept = n > 5 ? 4 : 3;
  }
  return kept;
}

int main(void) {
  print_i64(checked(1));
  print_i64(checked(3));
  print_i64(checked(7));
  return 0;
}

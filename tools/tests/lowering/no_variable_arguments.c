// A call without variable arguments of a function that reads one: here the value has no effect on what is printed.
#include <hippo.h>
#include <stdarg.h>

static long long opened(long long path, int flags, ...) {
  va_list list;
  va_start(list, flags);
  int mode = va_arg(list, int);
  va_end(list);
  return path * 100 + flags + (flags & 64 ? mode : 0);
}

static long long seven(int a, int b, int c, int d, int e, int f, int g, ...) {
  va_list list;
  va_start(list, g);
  long long first = va_arg(list, long long), second = va_arg(list, long long);
  va_end(list);
  return a + b + c + d + e + f + g + (g ? 0 : first + second);
}

static long long (*volatile by_pointer)(long long, int, ...) = opened;

int main(void) {
  print_i64(opened(1, 2));
  print_i64(opened(1, 66, 5));
  print_i64(by_pointer(2, 3));
  print_i64(by_pointer(2, 67, 6));
  print_i64(seven(1, 2, 3, 4, 5, 6, 7));
  print_i64(seven(1, 2, 3, 4, 5, 6, 0, 8ll, 9ll));
  return 0;
}

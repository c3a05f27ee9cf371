// `exit` in called functions, one of them called by pointer, runs the functions of `atexit` and the destructors, and ends the run.
#include <hippo.h>
#include <stdlib.h>

static int depth;
static void last(void) { print_i64(90 + depth); }
static void first(void) { print_i64(80 + depth); }
__attribute__((destructor)) static void at_end(void) { print_i64(70 + depth); }

static _Noreturn void stop(int code) {
  print_i64(code);
  exit(code);
}
static int deep(int n) {
  depth = n;
  if (n == 4) stop(n + 2);
  int below = deep(n + 1);
  print_i64(-1);
  return below;
}
static int (*volatile chosen)(int) = deep;

int main(void) {
  atexit(last);
  atexit(first);
  int result = chosen(0);
  print_i64(-2);
  return result;
}

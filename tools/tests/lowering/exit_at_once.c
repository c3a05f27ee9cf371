// `_exit` in a called function ends the run without the functions of `atexit` and the destructors.
// options: --ignore-output
#include <hippo.h>
#include <stdio.h>
#include <stdlib.h>
#include <unistd.h>

static void never(void) { print_i64(-1); }
__attribute__((destructor)) static void never_either(void) { print_i64(-3); }
static void stop(int code) {
  print_i64(code);
  fflush(stdout);
  _exit(code);
}
static void between(int code) {
  stop(code);
  print_i64(-2);
}

int main(void) {
  atexit(never);
  between(7);
  return 0;
}

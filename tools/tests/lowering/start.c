// The words of main, constructors and destructors, what atexit runs, and exit in main.
// arguments: one -two "3"
#include <hippo.h>
#include <stdlib.h>

static int order;
__attribute__((constructor(200))) static void second(void) { order = order * 10 + 2; }
__attribute__((constructor(101))) static void first(void) { order = order * 10 + 1; }
__attribute__((constructor)) static void third(void) { order = order * 10 + 3; }
__attribute__((destructor)) static void last(void) { print_i64(-order); }
static void at_end(void) { print_i64(order + 1000); }

int main(int argc, char **argv, char **environment) {
  print_i64(order);
  print_i64(argc);
  for (int i = 1; i < argc; i++) {
    for (char *at = argv[i]; *at; at++) print_i64(*at);
  }
  argv[1][0] = 'O';
  print_i64(argv[1][0] + (argv[argc] == 0));
  atexit(at_end);
  if (read_i64() == 0) {
    exit(7);
  }
  return 3;
}

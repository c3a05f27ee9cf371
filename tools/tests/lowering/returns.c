// What runs when main returns: functions of atexit in the other order, then destructors.
#include <hippo.h>
#include <stdlib.h>

PERSISTENT static long long count;
__attribute__((destructor)) static void last(void) { print_i64(30 + count); }
static void one(void) { print_i64(10 + count); }
static void two(void) { count++; pmem_persist(&count, sizeof count); print_i64(20 + count); }

int main(void) {
  atexit(one);
  atexit(two);
  print_i64(1);
  return (int)read_i64() + 4;
}

#include <hippo.h>

struct Other {
  long number;
  explicit Other(long given) : number(given) { print_i64(number + 1000); }
  ~Other() { print_i64(-number - 1000); }
};

Other other(1);
static Other another(2);
__attribute__((init_priority(250))) static Other between(3);
long of_the_other() { return other.number + another.number + between.number; }

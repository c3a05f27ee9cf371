// Pointers to members: data, functions, and virtual functions, also of a second base.
#include <hippo.h>

struct First {
  long one = 1, two = 2;
  virtual long f(long x) { return x + one; }
  long g(long x) { return x * two; }
};

struct Second {
  long three = 3;
  virtual long h(long x) { return x - three; }
  long k(long x) const { return x ^ three; }
};

struct Third : First, Second {
  long f(long x) override { return x * 10 + two; }
  long h(long x) override { return -x; }
};

using Function = long (Third::*)(long);

static long apply(Third &object, Function function, long x) { return (object.*function)(x); }

int main() {
  Third object;
  Function table[] = {&Third::f, &Third::g, &Third::h, static_cast<Function>(&Second::h)};
  for (Function function : table) print_i64(apply(object, function, 5));
  long (Second::*constant)(long) const = &Second::k;
  Second &second = object;
  print_i64((second.*constant)(6));
  long First::*data = &First::two;
  object.*data = 8;
  print_i64(object.g(2));
  long Third::*moved = &Third::three;
  print_i64(object.*moved);
  Function none = nullptr;
  print_i64(!none + 2 * (table[0] != table[1]) + 4 * (table[0] == &Third::f));
  return 0;
}

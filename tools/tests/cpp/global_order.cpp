// Objects of two files are made in the order of the files and of their lines, by their priorities first, and destroyed in the
// opposite order, among the functions of atexit.
// files: ../cpp_more/global_order_other.cpp
#include <cstdlib>
#include <hippo.h>

struct Noted {
  long number;
  explicit Noted(long given) : number(given) { print_i64(number); }
  ~Noted() { print_i64(-number); }
};

Noted one(1);
static Noted two(2);
__attribute__((init_priority(300))) Noted early(3);
__attribute__((init_priority(200))) Noted earlier(4);
static Noted row[2] = {Noted(5), Noted(6)};
static const long computed = one.number * 10 + two.number;

extern long of_the_other();

static Noted &inside() {
  static Noted noted(7);
  return noted;
}

static void last() { print_i64(70); }

__attribute__((constructor(150))) static void begin() { print_i64(80); }
__attribute__((destructor)) static void end() { print_i64(90); }

int main() {
  print_i64(computed);
  print_i64(of_the_other());
  std::atexit(last);
  print_i64(inside().number);
  Noted here(8);
  return 3;
}

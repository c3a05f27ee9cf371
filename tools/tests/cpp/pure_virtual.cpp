// A virtual function that is called in the constructor of its base, where it has no body.
// traps: in the library
#include <hippo.h>
struct Base {
  Base() { call(); }
  void call() { print_i64(number()); }
  virtual long number() const = 0;
};
struct Derived : Base {
  long number() const override { return 5; }
};
int main() {
  print_i64(1);
  Derived derived;
  print_i64(derived.number());
  return 0;
}

// A dynamic_cast of a reference that fails, and a value of another type: each throws natively, and the run traps.
// traps: in the library
#include <hippo.h>
#include <variant>
struct A { virtual ~A() {} };
struct B : A { long b = 2; };
int main() {
  A a;
  B b;
  A *any = read_i64() ? &a : &b;
  print_i64(dynamic_cast<B &>(*any).b);
  any = &a;
  try {
    print_i64(dynamic_cast<B &>(*any).b);
  } catch (...) {
    print_i64(-1);
  }
  return 0;
}

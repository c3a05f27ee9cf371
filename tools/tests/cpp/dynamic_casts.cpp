// dynamic_cast down, across, to a virtual base's classes, to the whole object, and where it finds nothing or two.
#include <hippo.h>

struct A { virtual ~A() {} long a = 1; };
struct B { virtual ~B() {} long b = 2; };
struct C : A, B { long c = 3; };
struct D : virtual A { long d = 4; };
struct E : virtual A, D { long e = 5; };
struct Left : A { long l = 6; };
struct Right : A { long r = 7; };
struct Twice : Left, Right { long t = 8; };
struct Hidden : private A, public B { A *inside() { return this; } };

int main() {
  C c;
  A *a = &c;
  B *b = &c;
  print_i64(dynamic_cast<C *>(a)->c + 10 * dynamic_cast<C *>(b)->c);
  print_i64(dynamic_cast<B *>(a)->b);
  print_i64(dynamic_cast<A *>(b) == a);
  print_i64(dynamic_cast<void *>(b) == &c);
  print_i64(dynamic_cast<D *>(a) == nullptr);
  E e;
  a = &e;
  print_i64(dynamic_cast<D *>(a)->d * 10 + dynamic_cast<E *>(a)->e);
  print_i64(dynamic_cast<B *>(a) == nullptr);
  Twice twice;
  Left *left = &twice;
  a = left;
  print_i64(dynamic_cast<Twice *>(a)->t);
  print_i64(dynamic_cast<Right *>(a)->r);
  Right *right = dynamic_cast<Right *>(left);
  print_i64(right == &twice);
  b = &twice == nullptr ? &c : nullptr;
  print_i64(dynamic_cast<A *>(b) == nullptr);
  Hidden hidden;
  b = &hidden;
  print_i64(dynamic_cast<A *>(b) == nullptr);
  print_i64(dynamic_cast<B *>(hidden.inside()) == nullptr);
  C &same = dynamic_cast<C &>(*static_cast<A *>(&c));
  print_i64(same.c);
  return 0;
}

// Aggregates, designated and default values of members, delegating and inherited constructors, order of bases and members.
#include <hippo.h>
#include <initializer_list>
static long step;
struct Noted {
  long at;
  Noted(long number) : at(++step * 10 + number) { print_i64(at); }
};
struct Base {
  Noted first{1};
  long given;
  Base(long number, long more = 2) : given(number * more) {}
  Base(std::initializer_list<long> all) : given(0) {
    for (long number : all) given = given * 10 + number;
  }
};
struct Derived : Base {
  using Base::Base;
  Noted second{3}, third;
  long extra = given + 1;
  Derived() : Derived(7, 8) { extra++; }
  Derived(long a, long b) : Base(a, b), third(2) {}
};
struct Plain {
  int a, b = 5;
  struct {
    char c, d;
  } inner;
  long array[3];
};
template <class T> struct Holder {
  T held{};
  [[no_unique_address]] struct Empty {} empty;
};
int main() {
  Derived derived;
  print_i64(derived.extra * 1000 + derived.given);
  Base list{1, 2, 3}, one(4);
  print_i64(list.given * 100 + one.given);
  Plain plain{.a = 1, .inner = {.d = 4}, .array = {7}};
  print_i64(plain.a * 1000 + plain.b * 100 + plain.inner.c + plain.inner.d * 10 + plain.array[0] + plain.array[2]);
  Plain copy{plain};
  copy.array[1] = 6;
  print_i64(copy.array[1] + plain.array[1] + sizeof(Holder<long>));
  print_i64(Holder<long>{}.held + Holder<int *>().held == nullptr);
  auto *several = new Plain[2]{{1}, {2, 3}};
  print_i64(several[0].b * 10 + several[1].b);
  delete[] several;
  return 0;
}

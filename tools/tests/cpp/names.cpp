// Names: argument-dependent lookup, friends, hidden and overloaded functions, anonymous namespaces, default arguments.
#include <hippo.h>
namespace library {
struct Point {
  long x, y;
  friend long norm(const Point &point) { return point.x + point.y; }
};
long twice(const Point &point) { return 2 * norm(point); }
namespace detail {
long twice(long x) { return x * 3; }
}
inline namespace version_2 {
template <class T> long size_of() { return sizeof(T) + 100; }
}
}
namespace {
long counter = 5;
struct Local {
  static long made;
  long own = ++made;
};
long Local::made = 40;
}
static long pick(int) { return 1; }
static long pick(long) { return 2; }
static long pick(const char *) { return 3; }
static long pick(...) { return 4; }
template <class T> static long pick(T *) { return 5; }
struct Base {
  long name(int) const { return 10; }
  virtual long hidden(long x = 7) const { return x; }
};
struct Derived : Base {
  using Base::name;
  long name(double) const { return 20; }
  long hidden(long x = 9) const override { return x * 100; }
};
static long with_defaults(long a, long b = counter++, long c = library::detail::twice(2)) { return a * 100 + b * 10 + c; }
static auto deduced(auto first, decltype(first) second) -> decltype(first + second) { return first - second; }
extern "C" long plain_name(long x) { return x + 1; }
int main() {
  library::Point point{3, 4};
  print_i64(twice(point) * 10 + norm(point));
  print_i64(library::size_of<int>() + library::version_2::size_of<char>());
  int array[2] = {};
  print_i64(pick(1) * 10000 + pick(1L) * 1000 + pick("a") * 100 + pick(point, 2) * 10 + pick(array));
  Derived derived;
  const Base &base = derived;
  print_i64(derived.name(1) + derived.name(1.5) + base.hidden() + derived.hidden());
  print_i64(with_defaults(1) + with_defaults(2) + with_defaults(3, 4));
  print_i64(deduced(9L, 4) + plain_name(6));
  Local one, two;
  print_i64(one.own + two.own * 100 + ::counter);
  {
    long counter = 1;
    print_i64(counter + ::counter);
  }
  return 0;
}

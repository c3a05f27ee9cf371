// try, catch, noexcept and rethrowing in code that does not throw; values that a throw would not give.
#include <exception>
#include <hippo.h>
#include <new>
#include <stdexcept>

struct Checked {
  long number;
  explicit Checked(long given) try : number(check(given)) {
  } catch (...) {
    print_i64(-2);
  }
  static long check(long given) { return given < 0 ? throw given : given; }
  long either(bool first) const noexcept(false) { return first ? number : throw std::runtime_error("second"); }
  ~Checked() { print_i64(std::uncaught_exceptions()); }
};

static long guarded(long number) noexcept {
  try {
    if (number > 100) throw std::length_error("long");
    try {
      if (number > 50) throw 5;
      return number * 2;
    } catch (int found) {
      throw;
    }
  } catch (const std::exception &) {
    return -1;
  }
}

template <class T> static constexpr bool quiet = noexcept(T(1).either(true));

int main() {
  Checked checked(4);
  print_i64(guarded(7));
  print_i64(checked.either(true));
  print_i64(quiet<Checked> + noexcept(guarded(1)) * 2);
  try {
    long *words = new long[3]{1, 2, 3};
    print_i64(words[0] + words[2]);
    delete[] words;
  } catch (const std::bad_alloc &) {
    print_i64(-3);
  }
  std::runtime_error error("kept as an object");
  std::runtime_error copy = error;
  print_i64(copy.what()[5]);
  return 0;
}

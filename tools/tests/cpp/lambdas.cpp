// Lambdas: captures by value and by reference, state of their own, templates, recursion, pointers to functions.
#include <hippo.h>

template <class Function> static long three_times(Function &&function) { return function(1) + function(2) * 10 + function(3) * 100; }

struct Account {
  long sum = 0;
  auto adder() { return [this](long x) { return sum += x; }; }
  auto copy() const { return [*this](long x) { return sum + x; }; }
};

static long (*chosen(bool first))(long) {
  if (first) return [](long x) { return x + 1; };
  return [](long x) { return x * 2; };
}

int main() {
  long base = 5, changed = 0;
  print_i64(three_times([base](long x) { return x + base; }));
  print_i64(three_times([&](long x) { return changed = changed * 2 + x; }));
  print_i64(changed);
  auto counter = [count = 0L]() mutable { return ++count; };
  counter();
  auto other = counter;
  print_i64(counter() * 10 + other() * 10 + counter());
  Account account;
  auto add = account.adder();
  add(4);
  auto copy = account.copy();
  add(6);
  print_i64(account.sum * 100 + copy(1));
  print_i64(chosen(true)(20) + chosen(false)(20));
  auto power = [](auto self, long x, int n) -> long { return n ? x * self(self, x, n - 1) : 1; };
  print_i64(power(power, 3, 5));
  auto pair = [](auto first, auto... rest) { return [=](auto function) { return function(first, rest...); }; };
  print_i64(pair(7L, 2L, 3L)([](long a, long b, long c) { return a * 100 + b * 10 + c; }));
  auto typed = []<class T, int N>(T (&items)[N]) { return items[N - 1] + N; };
  long items[] = {4, 5, 6};
  print_i64(typed(items));
  return 0;
}

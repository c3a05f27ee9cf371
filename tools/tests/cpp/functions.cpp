// std::function, std::bind, std::invoke and references to functions.
#include <functional>
#include <hippo.h>
#include <vector>

struct Adder {
  long base;
  long operator()(long x) const { return x + base; }
  long times(long x) const { return x * base; }
};
static long minus(long a, long b) { return a - b; }

int main() {
  std::vector<std::function<long(long)>> all;
  for (long i = 0; i < 3; i++) all.push_back([i](long x) { return x * 10 + i; });
  all.emplace_back(Adder{100});
  all.push_back(std::bind(minus, std::placeholders::_1, 3));
  all.push_back(std::bind(minus, 3, std::placeholders::_1));
  all.push_back(std::bind(&Adder::times, Adder{7}, std::placeholders::_1));
  long big[8] = {1, 2, 3, 4, 5, 6, 7, 8};
  all.push_back([big](long x) { return big[x]; });
  for (const auto &function : all) print_i64(function(5));
  std::function<long(long)> none;
  print_i64(!none + (none ? 2 : 0));
  none = all[3];
  std::swap(none, all[0]);
  print_i64(none(1) + all[0](1));
  print_i64(std::invoke(&Adder::base, Adder{4}) + std::invoke(minus, 9, 2));
  long number = 1;
  auto change = std::bind([](long &given, long by) { given += by; }, std::ref(number), std::placeholders::_2);
  change(0, 5);
  print_i64(number);
  auto swapped = std::bind(minus, std::placeholders::_2, std::placeholders::_1);
  print_i64(swapped(1, 10));
  print_i64(std::plus<>{}(2L, 3) + std::hash<long>{}(77) + std::mem_fn(&Adder::times)(Adder{2}, 3));
  return 0;
}

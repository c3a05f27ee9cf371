// Generators and distributions of whole numbers give the numbers of the library.
#include <algorithm>
#include <hippo.h>
#include <numeric>
#include <random>
#include <vector>
int main() {
  std::mt19937 small(5);
  std::mt19937_64 large(7);
  print_i64(small());
  print_i64(static_cast<long>(large()));
  std::uniform_int_distribution<int> die(1, 6);
  long found = 0;
  for (int time = 0; time < 10; time++) found = found * 7 + die(small);
  print_i64(found);
  std::vector<int> numbers(10);
  std::iota(numbers.begin(), numbers.end(), 0);
  std::shuffle(numbers.begin(), numbers.end(), large);
  found = 0;
  for (int number : numbers) found = found * 10 + number;
  print_i64(found);
  std::minstd_rand linear(3);
  linear.discard(5);
  print_i64(linear());
  std::seed_seq seeds{1, 2, 3};
  std::mt19937 seeded(seeds);
  print_i64(seeded());
  return 0;
}

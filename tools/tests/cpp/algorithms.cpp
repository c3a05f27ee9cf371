// Algorithms on sequences: partitions, sets, searches, permutations, sums and rotations.
#include <algorithm>
#include <hippo.h>
#include <iterator>
#include <numeric>
#include <vector>
static long sum(const std::vector<int> &numbers) { return std::accumulate(numbers.begin(), numbers.end(), 0L, [](long a, int b) { return a * 13 + b; }); }
int main() {
  std::vector<int> numbers(12), other;
  std::generate(numbers.begin(), numbers.end(), [n = 1]() mutable { return n = n * 5 % 23; });
  print_i64(sum(numbers));
  auto middle = std::stable_partition(numbers.begin(), numbers.end(), [](int n) { return n > 10; });
  print_i64(sum(numbers) + (middle - numbers.begin()));
  std::rotate(numbers.begin(), middle, numbers.end());
  std::sort(numbers.begin(), middle);
  std::copy_if(numbers.begin(), numbers.end(), std::back_inserter(other), [](int n) { return n % 2; });
  print_i64(sum(numbers) + sum(other));
  std::sort(numbers.begin(), numbers.end());
  std::sort(other.begin(), other.end());
  std::vector<int> difference;
  std::set_difference(numbers.begin(), numbers.end(), other.begin(), other.end(), std::inserter(difference, difference.end()));
  print_i64(sum(difference) + std::includes(numbers.begin(), numbers.end(), other.begin(), other.end()));
  print_i64(std::binary_search(numbers.begin(), numbers.end(), 7) * 10 + (std::lower_bound(numbers.begin(), numbers.end(), 9) - numbers.begin()));
  std::vector<int> letters{1, 2, 3, 4};
  long count = 0;
  do count = count * 3 + letters[1]; while (std::next_permutation(letters.begin(), letters.end()) && count < 1000000);
  print_i64(count);
  std::partial_sum(other.begin(), other.end(), other.begin());
  std::adjacent_difference(numbers.begin(), numbers.end(), numbers.begin());
  print_i64(sum(other) + sum(numbers));
  print_i64(std::inner_product(other.begin(), other.end(), numbers.begin(), 0L));
  auto [least, greatest] = std::minmax_element(other.begin(), other.end());
  print_i64(*least * 1000 + *greatest + (std::max({3, 8, 5}) + std::clamp(40, 0, 9)) * 100000);
  numbers.erase(std::unique(numbers.begin(), numbers.end()), numbers.end());
  print_i64(sum(numbers) + std::all_of(numbers.begin(), numbers.end(), [](int n) { return n >= 0; }));
  std::vector<int> heap(other.rbegin(), other.rend());
  print_i64(std::equal(heap.rbegin(), heap.rend(), other.begin()) + std::mismatch(heap.begin(), heap.end(), other.begin()).first - heap.begin());
  print_i64(std::reduce(other.begin(), other.end()) + std::transform_reduce(other.begin(), other.end(), 0, std::plus<>{}, [](int n) { return n % 4; }));
  return 0;
}

// Ranges: views that filter, change, join and take; algorithms with projections.
#include <algorithm>
#include <array>
#include <hippo.h>
#include <numeric>
#include <ranges>

struct Record {
  int key;
  long value;
};

int main() {
  std::array<int, 10> numbers;
  std::iota(numbers.begin(), numbers.end(), 1);
  long sum = 0;
  auto odd = [](int number) { return number % 2 == 1; };
  for (long square : numbers | std::views::filter(odd) | std::views::transform([](long number) { return number * number; })) sum += square;
  print_i64(sum);
  sum = 0;
  for (int number : numbers | std::views::drop(2) | std::views::take(3) | std::views::reverse) sum = sum * 10 + number;
  print_i64(sum);
  for (int number : std::views::iota(3, 6)) sum += number;
  print_i64(sum);
  std::array<Record, 4> records{{{3, 30}, {1, 10}, {4, 40}, {2, 20}}};
  std::ranges::sort(records, std::greater{}, &Record::key);
  print_i64(records[0].value * 100 + records[3].value);
  auto found = std::ranges::find(records, 2, &Record::key);
  print_i64(found - records.begin());
  print_i64(std::ranges::count_if(records, [](const Record &record) { return record.value > 15; }));
  print_i64(std::ranges::max(records, {}, &Record::value).key);
  return 0;
}

// Unordered containers: the order of their elements, their buckets and their load, as natively.
#include <hippo.h>
#include <string>
#include <unordered_map>
#include <unordered_set>
struct Key {
  int page, slot;
  bool operator==(const Key &) const = default;
};
template <> struct std::hash<Key> {
  std::size_t operator()(const Key &key) const { return key.page * 31 + key.slot; }
};
int main() {
  std::unordered_set<int> numbers;
  numbers.max_load_factor(0.5f);
  for (int number = 0; number < 100; number++) numbers.insert(number * 37 % 1000);
  numbers.rehash(500);
  numbers.reserve(900);
  long sum = 0, place = 0;
  for (int number : numbers) sum += number * ++place;
  print_i64(sum);
  print_i64(numbers.bucket_count() * 1000 + static_cast<long>(numbers.load_factor() * 1000));
  std::unordered_map<std::string, long> words;
  for (int number = 0; number < 60; number++) words["word" + std::to_string(number * 7)] += number;
  sum = place = 0;
  for (const auto &[word, number] : words) sum += number * ++place + word.back();
  print_i64(sum);
  print_i64(words.count("word7") * 10 + words.erase("word14") + words.size() * 100);
  std::unordered_multimap<Key, int> several;
  for (int number = 0; number < 20; number++) several.insert({{number % 3, number % 2}, number});
  print_i64(several.count({1, 1}) * 100 + several.bucket_count());
  auto [first, last] = several.equal_range({2, 0});
  for (sum = 0; first != last; ++first) sum = sum * 20 + first->second;
  print_i64(sum);
  words.clear();
  print_i64(words.empty() + words.bucket_count());
  return 0;
}

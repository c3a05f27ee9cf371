// Ordered containers: insertion with and without a value, ranges, nodes that move between maps, erasure while iterating.
#include <hippo.h>
#include <map>
#include <set>
#include <string>
static long sum(const std::map<int, std::string> &map) {
  long found = 0;
  for (const auto &[key, text] : map) found = found * 31 + key + text.size();
  return found;
}
int main() {
  std::map<int, std::string> map;
  for (int number = 0; number < 40; number++) map[number * 17 % 41] = std::string(number % 5, 'x');
  print_i64(sum(map));
  print_i64(map.insert({3, "no"}).second + 2 * map.try_emplace(100, "yes").second + map.insert_or_assign(3, "new").first->second.size() * 10);
  for (auto at = map.begin(); at != map.end();) at = at->first % 3 ? std::next(at) : map.erase(at);
  print_i64(sum(map));
  print_i64(map.lower_bound(20)->first * 1000 + map.upper_bound(20)->first + map.contains(22));
  std::map<int, std::string> other;
  other.insert(map.extract(20));
  other.merge(map);
  print_i64(other.size() * 100 + map.size() + std::prev(other.end())->first);
  std::set<std::string, std::greater<>> words{"one", "two", "three", "four"};
  print_i64(words.begin()->size() * 10 + words.count("two") + *words.rbegin()->c_str());
  std::multiset<int> several{3, 1, 3, 2, 3};
  print_i64(several.count(3) * 10 + several.erase(3) + several.size() * 100);
  std::multimap<char, int> letters{{'b', 1}, {'a', 2}, {'b', 3}};
  auto [first, last] = letters.equal_range('b');
  print_i64(std::distance(first, last) * 10 + first->second);
  std::map<int, std::string> copy = other;
  copy.erase(copy.begin(), copy.find(30));
  print_i64((copy < other) + 2 * (copy != other) + copy.size() * 10);
  return 0;
}

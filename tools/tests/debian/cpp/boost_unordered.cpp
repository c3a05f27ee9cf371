// Boost.Unordered: hash tables over a persistent allocator.
#include "persistent_memory.hpp"
#include <boost/unordered_map.hpp>
#include <boost/unordered_set.hpp>

template <class T> using Alloc = persistent::Allocator<T>;
using Map = boost::unordered_map<int, long, boost::hash<int>, std::equal_to<int>, Alloc<std::pair<const int, long>>>;
using Pairs = boost::unordered_multimap<int, int, boost::hash<int>, std::equal_to<int>, Alloc<std::pair<const int, int>>>;
using Set = boost::unordered_set<long, boost::hash<long>, std::equal_to<long>, Alloc<long>>;

int main() {
  Map &map = *new (persistent::take(sizeof(Map), 64)) Map;
  Pairs &pairs = *new (persistent::take(sizeof(Pairs), 64)) Pairs;
  Set &set = *new (persistent::take(sizeof(Set), 64)) Set;
  for (int i = 0; i < 150; i++) {
    int key = static_cast<int>(draw(90));
    draw(4) ? (void)(map[key] += i) : (void)map.erase(key);
    pairs.emplace(key % 10, i);
    set.insert(key * 7919L);
    if (i % 9 == 8) pairs.erase(key % 10);
  }
  persistent::Digest digest;
  for (auto &pair : map) digest.add(pair.first * 10000 + pair.second);
  digest.print();
  for (auto &pair : pairs) digest.add(pair.first * 10000 + pair.second);
  digest.print();
  for (long key : set) digest.add(key);
  digest.print();
  print_i64(static_cast<long long>(map.bucket_count() * 1000 + pairs.count(3)));
  print_i64(static_cast<long long>(set.load_factor() * 1000));
  persistent::persist(&map, sizeof map);
  return 0;
}

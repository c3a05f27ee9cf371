// robin-map: hash tables with robin hood hashing, over a persistent allocator.
#include "persistent_memory.hpp"
#include <tsl/robin_map.h>
#include <tsl/robin_set.h>

using Map = tsl::robin_map<int, long, std::hash<int>, std::equal_to<int>, persistent::Allocator<std::pair<int, long>>>;
using Set = tsl::robin_pg_set<int, std::hash<int>, std::equal_to<int>, persistent::Allocator<int>, true>;

int main() {
  Map &map = *new (persistent::take(sizeof(Map), 64)) Map(8);
  Set &set = *new (persistent::take(sizeof(Set), 64)) Set;
  for (int i = 0; i < 150; i++) {
    int key = static_cast<int>(draw(100));
    if (draw(4) == 0) {
      print_i64(static_cast<long long>(map.erase(key)));
    } else {
      map[key] += i;
      persistent::persist(&map.at(key), sizeof(long));
    }
    draw(3) ? (void)set.insert(key * 7) : (void)set.erase(key * 7);
  }
  persistent::Digest digest;
  for (auto &pair : map) digest.add(pair.first * 100000 + pair.second);
  digest.print();
  for (int key : set) digest.add(key);
  digest.print();
  print_i64(static_cast<long long>(map.bucket_count() + set.size() * 1000));
  print_i64(static_cast<long long>(map.load_factor() * 1000));
  return 0;
}

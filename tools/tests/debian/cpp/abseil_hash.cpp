// Abseil's flat and node hash tables with groups of SSE2, over a persistent allocator.
#include "persistent_memory.hpp"
#include "absl/container/flat_hash_map.h"
#include "absl/container/node_hash_set.h"

// A hash of its own: Abseil's begins with an address.
struct Hash {
  std::size_t operator()(int key) const { return static_cast<std::size_t>(key) * 0x9E3779B97F4A7C15u >> 7; }
};
using Map = absl::flat_hash_map<int, long, Hash, std::equal_to<int>, persistent::Allocator<std::pair<const int, long>>>;
using Set = absl::node_hash_set<int, Hash, std::equal_to<int>, persistent::Allocator<int>>;

int main() {
  Map &map = *new (persistent::take(sizeof(Map), 64)) Map;
  Set &set = *new (persistent::take(sizeof(Set), 64)) Set;
  for (int i = 0; i < 200; i++) {
    int key = static_cast<int>(draw(120));
    if (draw(4)) {
      map[key] += i;
      persistent::persist(&map.at(key), sizeof(long));
      set.insert(key * 3);
    } else {
      map.erase(key);
      set.erase(key * 3);
    }
  }
  long sum = 0;
  for (auto &pair : map) sum += pair.first * 1000 + pair.second;
  for (int key : set) sum += key;
  print_i64(sum);
  print_i64(static_cast<long long>(map.size() * 1000 + set.size()));
  print_i64(static_cast<long long>(map.capacity()));
  return 0;
}

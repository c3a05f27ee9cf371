// hopscotch-map: hash tables with hopscotch hashing and an overflow list or tree, over a persistent allocator.
#include "persistent_memory.hpp"
#include <tsl/bhopscotch_map.h>
#include <tsl/hopscotch_map.h>
#include <tsl/hopscotch_set.h>

struct Few {
  std::size_t operator()(int key) const { return static_cast<std::size_t>(key % 3); }
};
using Memory = persistent::Allocator<std::pair<int, int>>;
using Map = tsl::hopscotch_map<int, int, std::hash<int>, std::equal_to<int>, Memory, 30, true>;
using Crowded = tsl::bhopscotch_map<int, int, Few, std::equal_to<int>, std::less<int>, persistent::Allocator<std::pair<const int, int>>, 6>;

template <class Map> static void drive(int keys) {
  Map &map = *new (persistent::take(sizeof(Map), 64)) Map;
  for (int i = 0; i < 120; i++) {
    int key = static_cast<int>(draw(keys));
    if (draw(4)) {
      map[key] = i;
      persistent::persist(&map.at(key), sizeof(int));
    } else {
      map.erase(key);
    }
  }
  persistent::Digest digest;
  for (auto &pair : map) digest.add(pair.first * 1000 + pair.second);
  digest.print();
  print_i64(static_cast<long long>(map.size() * 10000 + map.bucket_count() + map.overflow_size() * 100000000));
}

int main() {
  drive<Map>(90);
  drive<Crowded>(40);
  return 0;
}

// Abseil's B-trees, inlined vectors and fixed arrays over a persistent allocator.
#include "persistent_memory.hpp"
#include "absl/container/btree_map.h"
#include "absl/container/btree_set.h"
#include "absl/container/fixed_array.h"
#include "absl/container/inlined_vector.h"

using Map = absl::btree_map<int, long, std::less<int>, persistent::Allocator<std::pair<const int, long>>>;
using Set = absl::btree_multiset<long, std::greater<long>, persistent::Allocator<long>>;
using Vector = absl::InlinedVector<int, 4, persistent::Allocator<int>>;

int main() {
  Map &map = *new (persistent::take(sizeof(Map), 64)) Map;
  Set &set = *new (persistent::take(sizeof(Set), 64)) Set;
  Vector &vector = *new (persistent::take(sizeof(Vector), 64)) Vector;
  for (int i = 0; i < 200; i++) {
    int key = static_cast<int>(draw(300));
    map[key] = i;
    persistent::persist(&map[key], sizeof(long));
    set.insert(key % 50);
    if (i % 3 == 2) map.erase(map.lower_bound(static_cast<int>(draw(300))) == map.end() ? map.begin() : map.lower_bound(key));
    if (i % 5 == 4) set.erase(set.begin());
    vector.insert(vector.begin() + draw(static_cast<unsigned>(vector.size()) + 1), key);
  }
  persistent::Digest digest;
  for (auto &pair : map) digest.add(pair.first * 1000 + pair.second);
  digest.print();
  for (long key : set) digest.add(key);
  digest.print();
  for (int key : vector) digest.add(key);
  digest.print();
  print_i64(static_cast<long long>(map.size() * 1000 + set.count(7)));
  absl::FixedArray<int> few(vector.size() > 100 ? 10 : 5, 3);
  print_i64(few[4] + static_cast<int>(few.size()));
  return 0;
}

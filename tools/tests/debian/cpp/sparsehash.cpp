// sparsehash: dense and sparse tables with deleted keys, over a persistent allocator.
#include "persistent_memory.hpp"
#include <google/dense_hash_map>
#include <sparsehash/dense_hash_set>
#include <sparsehash/sparse_hash_map>
#include <sparsehash/sparsetable>

using Memory = persistent::Allocator<std::pair<const int, long>>;
using Dense = google::dense_hash_map<int, long, std::hash<int>, std::equal_to<int>, Memory>;
using Sparse = google::sparse_hash_map<int, long, std::hash<int>, std::equal_to<int>, Memory>;

template <class Map> static void drive(Map &map) {
  map.set_deleted_key(-2);
  for (int i = 0; i < 120; i++) {
    int key = static_cast<int>(draw(90));
    if (draw(4)) {
      map[key] = i;
      persistent::persist(&map[key], sizeof(long));
    } else {
      map.erase(key);
    }
  }
  persistent::Digest digest;
  for (auto &pair : map) digest.add(pair.first * 1000 + pair.second);
  digest.print();
  print_i64(static_cast<long long>(map.size() * 10000 + map.bucket_count()));
}

int main() {
  Dense &dense = *new (persistent::take(sizeof(Dense), 64)) Dense;
  dense.set_empty_key(-1);
  drive(dense);
  drive(*new (persistent::take(sizeof(Sparse), 64)) Sparse);
  google::sparsetable<short, 48> table(300);
  for (int i = 0; i < 80; i++) table.set(draw(300), static_cast<short>(i));
  print_i64(static_cast<long long>(table.num_nonempty()));
  return 0;
}

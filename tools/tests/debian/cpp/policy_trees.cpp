// The policy-based containers of libstdc++: trees with order statistics, tries, hash tables and heaps over a persistent allocator.
#include "persistent_memory.hpp"
#include <ext/pb_ds/assoc_container.hpp>
#include <ext/pb_ds/priority_queue.hpp>
#include <ext/pb_ds/tree_policy.hpp>
#include <ext/pb_ds/trie_policy.hpp>
#include <functional>
#include <string>

using namespace __gnu_pbds;
using Alloc = persistent::Allocator<char>;
template <class Tag> using Tree = tree<int, long, std::less<int>, Tag, tree_order_statistics_node_update, Alloc>;
using Probing = gp_hash_table<int, long, std::hash<int>, std::equal_to<int>, direct_mask_range_hashing<>, linear_probe_fn<>,
                              hash_standard_resize_policy<hash_exponential_size_policy<>, hash_load_check_resize_trigger<>>, false, Alloc>;
using Heap = __gnu_pbds::priority_queue<int, std::less<int>, pairing_heap_tag, Alloc>;
using Thin = __gnu_pbds::priority_queue<int, std::less<int>, thin_heap_tag, Alloc>;

template <class Tag> static void try_tree() {
  auto &map = *new (persistent::take(sizeof(Tree<Tag>), 64)) Tree<Tag>;
  for (int i = 0; i < 80; i++) {
    int key = static_cast<int>(draw(60));
    draw(4) ? (void)(map[key] += i) : (void)map.erase(key);
  }
  persistent::Digest digest;
  for (auto &pair : map) digest.add(pair.first * 1000 + pair.second);
  digest.print();
  print_i64(static_cast<long long>(map.order_of_key(30) * 1000 + map.find_by_order(5)->first));
  persistent::persist(&map, sizeof map);
}

template <class Queue> static void try_heap() {
  Queue &heap = *new (persistent::take(sizeof(Queue), 64)) Queue;
  Queue other;
  for (int i = 0; i < 40; i++) {
    heap.push(static_cast<int>(draw(500)));
    other.push(static_cast<int>(draw(500)));
    if (i % 5 == 4) heap.pop();
  }
  heap.join(other);
  persistent::Digest digest;
  for (; !heap.empty(); heap.pop()) digest.add(heap.top());
  digest.print();
}

int main() {
  try_tree<rb_tree_tag>();
  try_tree<splay_tree_tag>();
  try_tree<ov_tree_tag>();
  Probing &table = *new (persistent::take(sizeof(Probing), 64)) Probing;
  for (int i = 0; i < 120; i++) {
    int key = static_cast<int>(draw(90));
    draw(5) ? (void)(table[key] = i) : (void)table.erase(key);
  }
  persistent::Digest digest;
  for (int key = 0; key < 90; key++)
    if (table.find(key) != table.end()) digest.add(key * 1000 + table[key]);
  digest.print();
  print_i64(static_cast<long long>(table.size()));
  try_heap<Heap>();
  try_heap<Thin>();
  return 0;
}

// plf::colony: blocks whose elements never move, with jump-counting skipfields, over a persistent allocator.
#include "persistent_memory.hpp"
#include <plf_colony.h>

using Colony = plf::colony<long, persistent::Allocator<long>>;

int main() {
  Colony &colony = *new (persistent::take(sizeof(Colony), 64)) Colony;
  Colony::iterator kept[100];
  for (int i = 0; i < 100; i++) {
    kept[i] = colony.insert(static_cast<long>(draw(10000)));
    persistent::persist(&*kept[i], sizeof(long));
  }
  for (int i = 0; i < 100; i += 3) colony.erase(kept[i]);
  for (int i = 0; i < 20; i++) colony.insert(20000 + i);
  persistent::Digest digest;
  for (long number : colony) digest.add(number);
  digest.print();
  colony.sort();
  for (long number : colony) digest.add(number);
  digest.print();
  auto at = colony.begin();
  advance(at, 30);
  print_i64(*at);
  print_i64(static_cast<long long>(colony.size() * 1000 + colony.capacity()));
  return 0;
}

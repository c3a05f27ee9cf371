// Boost: a ring, a map of two ways, sets of bits, sets of intervals and a pool, over persistent memory.
#include "persistent_memory.hpp"
#include <boost/bimap.hpp>
#include <boost/circular_buffer.hpp>
#include <boost/dynamic_bitset.hpp>
#include <boost/icl/interval_map.hpp>
#include <boost/pool/pool.hpp>

using Ring = boost::circular_buffer<long, persistent::Allocator<long>>;
using Bits = boost::dynamic_bitset<unsigned long, persistent::Allocator<unsigned long>>;
using Ways = boost::bimap<int, long>;

struct Blocks {
  using size_type = std::size_t;
  using difference_type = std::ptrdiff_t;
  static char *malloc(size_type count) { return static_cast<char *>(persistent::take(count, 16)); }
  static void free(char *) {}
};

int main() {
  Ring &ring = *new (persistent::take(sizeof(Ring), 64)) Ring(16);
  Bits &bits = *new (persistent::take(sizeof(Bits), 64)) Bits(200);
  boost::pool<Blocks> pool(48);
  Ways ways;
  boost::icl::interval_map<int, int> shares;
  void *blocks[20] = {};
  for (int i = 0; i < 100; i++) {
    int number = static_cast<int>(draw(200));
    draw(3) ? ring.push_back(number) : ring.push_front(-number);
    bits.flip(number);
    ways.insert(Ways::value_type(number, i));
    shares += std::make_pair(boost::icl::interval<int>::right_open(number, number + 10), 1);
    void *&block = blocks[number % 20];
    if (block) pool.free(block), block = nullptr;
    else block = pool.malloc(), *static_cast<int *>(block) = number;
  }
  persistent::Digest digest;
  for (long number : ring) digest.add(number);
  digest.print();
  for (auto at = bits.find_first(); at != Bits::npos; at = bits.find_next(at)) digest.add(at);
  digest.print();
  for (auto &pair : ways.right) digest.add(pair.first * 1000 + pair.second);
  digest.print();
  for (auto &part : shares) digest.add(part.first.lower() * 1000 + part.first.upper() * 10 + part.second);
  digest.print();
  for (void *block : blocks) digest.add(block ? *static_cast<int *>(block) : 0);
  digest.print();
  persistent::persist(&ring, sizeof ring);
  persistent::persist(&bits, sizeof bits);
  return 0;
}

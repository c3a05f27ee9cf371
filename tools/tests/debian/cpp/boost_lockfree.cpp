// Boost.Lockfree, CircularBuffer, DynamicBitset and Pool, with their nodes in persistent memory.
#include "persistent_memory.hpp"
#include <boost/circular_buffer.hpp>
#include <boost/dynamic_bitset.hpp>
#include <boost/lockfree/queue.hpp>
#include <boost/lockfree/spsc_queue.hpp>
#include <boost/lockfree/stack.hpp>
#include <boost/pool/object_pool.hpp>
#include <boost/pool/simple_segregated_storage.hpp>

using Memory = boost::lockfree::allocator<persistent::Allocator<long>>;
template <class Object, class... Words> static Object &made(Words... words) {
  return *new (persistent::take(sizeof(Object), 64)) Object(words...);
}

int main() {
  auto &queue = made<boost::lockfree::queue<long, Memory>>(8);
  auto &stack = made<boost::lockfree::stack<long, Memory>>(4);
  auto &ring = made<boost::lockfree::spsc_queue<long, boost::lockfree::capacity<16>>>();
  auto &buffer = made<boost::circular_buffer<int, persistent::Allocator<int>>>(10u);
  auto &bits = made<boost::dynamic_bitset<unsigned long, persistent::Allocator<unsigned long>>>(200u);
  boost::simple_segregated_storage<std::size_t> storage;
  storage.add_block(persistent::take(1024, 64), 1024, 32);
  long long sum = 0;
  for (int i = 0; i < 80; i++) {
    long number = draw(1000), got = 0;
    queue.push(number);
    stack.push(number + 1);
    if (!ring.push(number)) print_i64(ring.pop(got) ? got : -1);
    if (i % 3 == 2 && queue.pop(got)) sum = sum * 31 + got;
    if (i % 5 == 4 && stack.pop(got)) sum = sum * 37 + got;
    buffer.push_back(static_cast<int>(number));
    bits.flip(static_cast<std::size_t>(number % 200));
    if (i % 4 == 0 && !storage.empty()) persistent::persist(new (storage.malloc()) long(number), sizeof number);
  }
  print_i64(sum);
  for (int number : buffer) print_i64(number);
  print_i64(static_cast<long long>(bits.count()));
  bits <<= 13;
  bits |= boost::dynamic_bitset<unsigned long, persistent::Allocator<unsigned long>>(200, 0x5555);
  print_i64(static_cast<long long>(bits.find_next(40)));
  for (long got; stack.pop(got);) print_i64(got);
  persistent::persist(&buffer, sizeof buffer);
  return 0;
}

// Boost.Interprocess: its allocator, offset pointers and containers in a buffer of persistent memory.
#include "persistent_memory.hpp"
#include <boost/interprocess/allocators/allocator.hpp>
#include <boost/interprocess/containers/map.hpp>
#include <boost/interprocess/containers/string.hpp>
#include <boost/interprocess/containers/vector.hpp>
#include <boost/interprocess/managed_external_buffer.hpp>

namespace ipc = boost::interprocess;
using Manager = ipc::managed_external_buffer::segment_manager;
template <class T> using Allocator = ipc::allocator<T, Manager>;
using Entry = std::pair<const int, int>;
using Map = ipc::map<int, int, std::less<int>, Allocator<Entry>>;
using Vector = ipc::vector<int, Allocator<int>>;
using Text = ipc::basic_string<char, std::char_traits<char>, Allocator<char>>;

int main() {
  const std::size_t size = 1 << 15;
  void *memory = persistent::take(size, 64);
  ipc::managed_external_buffer pool(ipc::create_only, memory, size);
  Allocator<int> allocator(pool.get_segment_manager());
  Map *map = pool.construct<Map>("map")(std::less<int>(), allocator);
  Vector *vector = pool.construct<Vector>("vector")(allocator);
  Text *text = pool.construct<Text>("text")(allocator);
  for (int i = 0; i < 60; i++) {
    (*map)[static_cast<int>(draw(80))] = i;
    vector->insert(vector->begin() + draw(static_cast<unsigned>(vector->size() + 1)), i);
    if (i % 3 == 0) map->erase(static_cast<int>(draw(80)));
    *text += static_cast<char>('a' + i % 26);
  }
  persistent::persist(memory, size);
  persistent::Digest digest;
  for (auto &entry : *pool.find<Map>("map").first) digest.add(entry.first * 1000 + entry.second);
  digest.print();
  for (int number : *pool.find<Vector>("vector").first) digest.add(number);
  digest.add(text->c_str());
  digest.print();
  print_i64(static_cast<long long>(pool.get_free_memory()));
  print_i64(pool.destroy<Vector>("vector"));
  print_i64(pool.destroy<Map>("map"));
  print_i64(pool.check_sanity());
  print_i64(static_cast<long long>(pool.get_free_memory()));
  print_i64(static_cast<long long>(pool.get_num_named_objects()));
  persistent::persist(memory, size);
  return 0;
}

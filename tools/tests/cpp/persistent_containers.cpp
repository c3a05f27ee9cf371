// Containers of the library over an allocator that gives persistent memory, with flushes by the program.
#include <hippo.h>
#include <map>
#include <new>
#include <scoped_allocator>
#include <string>
#include <vector>
alignas(64) PERSISTENT static unsigned char memory[1 << 14];
PERSISTENT static unsigned long used;
template <class T> struct Allocator {
  using value_type = T;
  Allocator() = default;
  template <class Other> Allocator(const Allocator<Other> &) {}
  T *allocate(std::size_t count) {
    unsigned long at = used;
    used = (at + count * sizeof(T) + 15) & ~15ul;
    pmem_persist(&used, sizeof used);
    return reinterpret_cast<T *>(memory + at);
  }
  void deallocate(T *, std::size_t) {}
  template <class Other> bool operator==(const Allocator<Other> &) const { return true; }
};
using Text = std::basic_string<char, std::char_traits<char>, Allocator<char>>;
using Map = std::map<int, Text, std::less<>, Allocator<std::pair<const int, Text>>>;
int main() {
  Map map;
  std::vector<long, Allocator<long>> numbers;
  for (int number = 0; number < 20; number++) {
    map.emplace(number * 7 % 20, Text(number + 10, 'a' + number % 26));
    numbers.push_back(number * number);
  }
  map.erase(5);
  pmem_persist(memory, used);
  pm_assert(memory, sizeof memory);
  long sum = 0;
  for (const auto &[key, text] : map) sum = sum * 3 + key + text.size() + text[2];
  print_i64(sum);
  print_i64(numbers[19] + numbers.size());
  print_i64(used);
  return 0;
}

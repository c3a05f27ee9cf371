// Vectors, vectors of bits and double-ended queues: growth, insertion in the middle, erasure, comparison.
#include <deque>
#include <hippo.h>
#include <string>
#include <vector>
static long copies;
struct Item {
  long number;
  Item(long given) : number(given) {}
  Item(const Item &from) : number(from.number) { copies++; }
  Item(Item &&from) noexcept : number(from.number) { from.number = -1; }
  Item &operator=(const Item &) = default;
  Item &operator=(Item &&) noexcept = default;
};
template <class List> static long sum(const List &list) {
  long found = 0;
  for (const auto &item : list) found = found * 7 + item.number;
  return found;
}
int main() {
  std::vector<Item> items;
  for (long number = 0; number < 20; number++) items.emplace_back(number);
  print_i64(sum(items) + copies);
  items.insert(items.begin() + 3, 2, Item(50));
  items.erase(items.begin() + 10, items.begin() + 15);
  print_i64(sum(items) * 10 + copies);
  items.insert(items.end(), items.begin(), items.begin() + 4);
  items.shrink_to_fit();
  print_i64(items.size() * 1000 + items.capacity() + copies);
  std::vector<bool> bits(100);
  bits[3] = bits[64] = true;
  bits.flip();
  bits.insert(bits.begin(), false);
  long count = 0;
  for (bool bit : bits) count += bit;
  print_i64(count * 10 + bits[4]);
  std::deque<Item> deque;
  for (long number = 0; number < 100; number++) number % 3 ? deque.push_back(number) : deque.push_front(number);
  deque.erase(deque.begin() + 5, deque.begin() + 90);
  deque.insert(deque.begin() + 2, Item(77));
  print_i64(sum(deque));
  std::vector<std::string> words{"b", "a"}, more(words.rbegin(), words.rend());
  print_i64((words > more) + 2 * (words == more));
  words.resize(4, "z");
  std::vector<std::vector<int>> grid(3, std::vector<int>(4, 5));
  grid[1].assign({1, 2});
  print_i64(words[3].size() + grid[1].size() * 10 + grid[2][3]);
  std::erase_if(words, [](const std::string &word) { return word == "z"; });
  print_i64(words.size());
  return 0;
}

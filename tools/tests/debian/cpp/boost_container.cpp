// Boost.Container: flat, stable, small and fixed containers over a persistent allocator.
#include "persistent_memory.hpp"
#include <boost/container/deque.hpp>
#include <boost/container/devector.hpp>
#include <boost/container/flat_map.hpp>
#include <boost/container/flat_set.hpp>
#include <boost/container/slist.hpp>
#include <boost/container/small_vector.hpp>
#include <boost/container/stable_vector.hpp>
#include <boost/container/static_vector.hpp>
#include <boost/container/string.hpp>
#include <boost/container/map.hpp>

namespace bc = boost::container;
template <class T> using Alloc = persistent::Allocator<T>;

template <class Container> static void print_all(const Container &container) {
  persistent::Digest digest;
  for (auto number : container) digest.add(number);
  print_i64(static_cast<long long>(container.size()));
  digest.print();
}

struct Root {
  bc::flat_set<int, std::less<int>, Alloc<int>> sorted;
  bc::flat_multimap<int, short, std::less<int>, Alloc<std::pair<int, short>>> pairs;
  bc::stable_vector<int, Alloc<int>> stable;
  bc::small_vector<int, 8, Alloc<int>> small;
  bc::static_vector<int, 64> fixed;
  bc::devector<int, Alloc<int>> two_ends;
  bc::deque<int, Alloc<int>> queue;
  bc::slist<int, Alloc<int>> chain;
  bc::basic_string<char, std::char_traits<char>, Alloc<char>> text;
  bc::map<int, int, std::less<int>, Alloc<std::pair<const int, int>>, bc::tree_assoc_options<bc::tree_type<bc::scapegoat_tree>>::type> tree;
};

int main() {
  Root &root = *new (persistent::take(sizeof(Root), 64)) Root;
  for (int i = 0; i < 60; i++) {
    int number = static_cast<int>(draw(500));
    root.sorted.insert(number);
    root.pairs.emplace(number % 16, static_cast<short>(i));
    root.stable.insert(root.stable.begin() + draw(static_cast<unsigned>(root.stable.size() + 1)), number);
    root.small.push_back(number);
    root.fixed.insert(root.fixed.begin(), number);
    i & 1 ? root.two_ends.push_back(number) : root.two_ends.push_front(number);
    i % 3 ? root.queue.push_back(number) : root.queue.push_front(number);
    root.chain.push_front(number);
    root.text.append("persistent ", i % 11);
    root.tree[number] = i;
    if (i % 7 == 6) root.sorted.erase(root.sorted.begin()), root.stable.erase(root.stable.begin() + 3), root.chain.pop_front();
    persistent::persist(root.fixed.data(), root.fixed.size() * sizeof(int));
  }
  root.chain.sort();
  print_all(root.sorted);
  print_all(root.stable);
  print_all(root.small);
  print_all(root.fixed);
  print_all(root.two_ends);
  print_all(root.queue);
  print_all(root.chain);
  print_all(root.text);
  persistent::Digest digest;
  for (auto &pair : root.pairs) digest.add(pair.first * 100 + pair.second);
  for (auto &pair : root.tree) digest.add(pair.first * 100 + pair.second);
  digest.print();
  persistent::persist(&root, sizeof root);
  return 0;
}

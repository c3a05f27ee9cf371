// Boost.Intrusive: trees, a hash table and a list over the same persistent objects, which contain their own links.
#include "persistent_memory.hpp"
#include <boost/intrusive/avl_set.hpp>
#include <boost/intrusive/list.hpp>
#include <boost/intrusive/set.hpp>
#include <boost/intrusive/sg_set.hpp>
#include <boost/intrusive/slist.hpp>
#include <boost/intrusive/splay_set.hpp>
#include <boost/intrusive/treap_set.hpp>
#include <boost/intrusive/unordered_set.hpp>

using namespace boost::intrusive;

struct Item : set_base_hook<>, avl_set_base_hook<>, unordered_set_base_hook<>, list_base_hook<>, slist_base_hook<>, bs_set_base_hook<> {
  int key, value;
  friend bool operator<(const Item &a, const Item &b) { return a.key < b.key; }
  friend bool operator==(const Item &a, const Item &b) { return a.key == b.key; }
  friend std::size_t hash_value(const Item &item) { return item.key * 2654435761u; }
  friend bool priority_order(const Item &a, const Item &b) { return a.value < b.value; }
};

enum { COUNT = 60, BUCKETS = 16 };
using Table = unordered_set<Item>;

template <class Tree> static void print_tree(const Tree &tree) {
  persistent::Digest digest;
  for (auto &item : tree) digest.add(item.key * 1000 + item.value);
  digest.print();
}

int main() {
  Item *items = new (persistent::take(sizeof(Item) * COUNT, 64)) Item[COUNT];
  auto *buckets = new (persistent::take(sizeof(Table::bucket_type) * BUCKETS, 64)) Table::bucket_type[BUCKETS];
  set<Item> red_black;
  avl_set<Item> avl;
  treap_set<Item, base_hook<bs_set_base_hook<>>> treap;
  Table table(Table::bucket_traits(buckets, BUCKETS));
  list<Item> all;
  slist<Item> last;
  for (int i = 0; i < COUNT; i++) {
    Item &item = items[i];
    item.key = static_cast<int>(draw(1000)), item.value = i;
    red_black.insert(item);
    avl.insert(item);
    table.insert(item);
    treap.insert(item);
    all.push_back(item);
    last.push_front(item);
    persistent::persist(&item.key, sizeof item.key + sizeof item.value);
  }
  for (int i = 0; i < 10; i++) {
    if (items[i].set_base_hook<>::is_linked()) red_black.erase(red_black.iterator_to(items[i]));
    if (items[i + 5].avl_set_base_hook<>::is_linked()) avl.erase(avl.iterator_to(items[i + 5]));
    if (items[i + 9].unordered_set_base_hook<>::is_linked()) table.erase(table.iterator_to(items[i + 9]));
  }
  print_tree(red_black);
  print_tree(avl);
  print_tree(table);
  print_tree(treap);
  all.reverse();
  all.sort();
  last.sort();
  print_tree(all);
  print_tree(last);
  persistent::persist(items, sizeof(Item) * COUNT);
  treap.clear();
  bs_set_base_hook<> *hook = items;
  splay_set<Item, base_hook<bs_set_base_hook<>>> splay;
  sg_set<Item, base_hook<bs_set_base_hook<>>> scapegoat;
  (void)hook;
  for (int i = 0; i < COUNT; i++) i & 1 ? (void)splay.insert(items[i]) : (void)scapegoat.insert(items[i]);
  for (int i = 0; i < 30; i++) {
    Item wanted;
    wanted.key = items[draw(COUNT)].key;
    print_i64((splay.find(wanted) != splay.end()) * 2 + (scapegoat.find(wanted) != scapegoat.end()));
  }
  print_tree(splay);
  print_tree(scapegoat);
  splay.clear();
  scapegoat.clear();
  red_black.clear();
  avl.clear();
  table.clear();
  all.clear();
  last.clear();
  return 0;
}

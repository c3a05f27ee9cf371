// A tree whose inserts shift the entries of a page to the right, entry by entry. An entry whose pointer is that of the entry before it is
// not there, so after each store the page has the same entries. A page that is split links its upper half before it drops it.
#include "flushing.h"
#include <new>

constexpr int most = 8;

struct Entry {
  std::int64_t key;
  char *pointer;
};

class Page;
PERSISTENT constinit Arena<1 << 13> memory;

class alignas(cache_line) Page {
  friend class Tree;
  Page *sibling = nullptr, *leftmost = nullptr;
  std::uint32_t level = 0;
  alignas(cache_line) Entry entries[most + 1] = {};

  char *nothing() const { return reinterpret_cast<char *>(const_cast<Page *>(this)); }
  bool is_there(int at) const { return entries[at].pointer != (at ? entries[at - 1].pointer : nothing()); }

public:
  explicit Page(std::uint32_t given) : level(given) {}
  static void *operator new(std::size_t size) { return memory.take(size); }
  static void operator delete(void *) {}

  int count() const {
    int found = 0;
    while (found < most && entries[found].pointer) found++;
    return found;
  }

  char *search(std::int64_t key) const {
    for (int at = 0, end = count(); at < end; at++)
      if (entries[at].key == key && is_there(at)) return entries[at].pointer;
    return nullptr;
  }

  void insert(std::int64_t key, char *pointer) {
    int at = count();
    if (entries[at + 1 > most ? most : at + 1].pointer && at < most) {
      entries[at + 1].pointer = nullptr;
      persist(entries[at + 1]);
    }
    for (; at > 0 && entries[at - 1].key > key; at--) {
      entries[at].pointer = entries[at - 1].pointer; // bug 1
      entries[at].key = entries[at - 1].key;
#if BUG != 1
      if (reinterpret_cast<std::uintptr_t>(&entries[at]) % cache_line == 0) persist(entries[at]);
#endif
    }
    entries[at].pointer = at ? entries[at - 1].pointer : nothing();
    entries[at].key = key;
    entries[at].pointer = pointer; // bug 2
#if BUG != 2
    persist(entries[at]);
#endif
    pm_assert(entries, sizeof entries);
  }

  // Takes out what a power cut left of a shift, and what a sibling has too.
  void recover() {
    for (int at = 0; at < most && entries[at].pointer;) {
      if (sibling && entries[at].key >= sibling->entries[0].key) {
        entries[at].pointer = nullptr;
        persist(entries[at]);
      } else if (is_there(at)) {
        at++;
      } else {
        for (int next = at; next < most && entries[next].pointer; next++) {
          entries[next].key = entries[next + 1].key;
          entries[next].pointer = entries[next + 1].pointer;
          persist(entries[next]);
        }
      }
    }
  }
};

class Tree {
  Page *root = nullptr;

  // The page of a level that has the place of a key.
  Page *page_of(std::int64_t key, std::uint32_t level) const {
    Page *page = root;
    for (;;) {
      while (page->sibling && page->sibling->count() && key >= page->sibling->entries[0].key) page = page->sibling;
      if (page->level == level) return page;
      Page *below = page->leftmost;
      for (int at = 0, end = page->count(); at < end && page->entries[at].key <= key; at++)
        if (page->is_there(at)) below = reinterpret_cast<Page *>(page->entries[at].pointer);
      page = below;
    }
  }

  void grow(Page *left, std::int64_t key, Page *right) {
    Page *page = new Page(left->level + 1);
    page->leftmost = left;
    page->entries[0] = {key, reinterpret_cast<char *>(right)};
    persist(*page);
    pm_assert(page, sizeof *page);
    root = page;
    persist(root);
  }

  Page *split(Page *page) {
    Page *upper = new Page(page->level);
    int middle = most / 2;
    if (page->level) upper->leftmost = reinterpret_cast<Page *>(page->entries[middle].pointer);
    for (int at = middle; at < most; at++) upper->entries[at - middle] = page->entries[at]; // bug 3
    upper->sibling = page->sibling;
#if BUG != 3
    persist(*upper);
#endif
    page->sibling = upper;
    persist(page->sibling);
    page->entries[middle].pointer = nullptr;
    persist(page->entries[middle]);
    return upper;
  }

  void put(std::int64_t key, char *pointer, std::uint32_t level) {
    Page *page = page_of(key, level);
    if (page->count() == most) {
      Page *upper = split(page);
      std::int64_t first = upper->entries[0].key;
      if (page == root) grow(page, first, upper);
      else put(first, reinterpret_cast<char *>(upper), level + 1);
      if (key >= first) page = upper;
    }
    page->insert(key, pointer);
  }

public:
  constexpr Tree() = default;
  void start() {
    if (root) return;
    Page *page = new Page(0);
    persist(*page);
    root = page;
    persist(root);
  }
  void insert(std::int64_t key, std::int64_t value) {
    if (!search(key)) put(key, reinterpret_cast<char *>(value), 0);
  }
  std::int64_t search(std::int64_t key) const { return reinterpret_cast<std::int64_t>(page_of(key, 0)->search(key)); }

  // After a power cut: the keys of the leaves grow, and each has its value.
  void recover() {
    if (!root) return;
    Page *page = root;
    while (page->level) page = page->leftmost;
    std::int64_t last = 0;
    for (; page; page = page->sibling) {
      page->recover();
      for (int at = 0, end = page->count(); at < end; at++) {
        const Entry &entry = page->entries[at];
        if (entry.key <= last || reinterpret_cast<std::int64_t>(entry.pointer) != entry.key * 10) __builtin_trap();
        last = entry.key;
      }
    }
    if (root->sibling) grow(root, root->sibling->entries[0].key, root->sibling); // the root was split, and no page is above it
  }
};

PERSISTENT constinit Tree tree;

int main() {
  tree.recover();
  tree.start();
  for (std::int64_t number = 1; number <= 20; number++) tree.insert(number * 7 % 23 + 1, (number * 7 % 23 + 1) * 10);
  std::int64_t sum = 0;
  for (std::int64_t key = 1; key <= 23; key++) sum = sum * 3 + tree.search(key) / 10;
  print_i64(sum);
  return 0;
}

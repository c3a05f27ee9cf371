// A radix tree over keys of two bytes, whose nodes of 16 compare all keys at once with SSE2. A child is there when the count says so.
#include "flushing.h"
#include <atomic>
#include <bit>
#include <emmintrin.h>
#include <new>

PERSISTENT constinit Arena<1 << 15> memory;

enum class Kind : std::uint8_t { four, sixteen, all };

class Node {
protected:
  const Kind kind;
  std::atomic<std::uint8_t> count{0};

public:
  explicit Node(Kind given) : kind(given) {}
  static void *operator new(std::size_t size) { return memory.take(size); }
  static void operator delete(void *) {}
  static bool is_value(const Node *node) { return reinterpret_cast<std::uintptr_t>(node) >> 63; }
  static std::uint64_t value_of(const Node *node) { return reinterpret_cast<std::uintptr_t>(node) & ~(1ull << 63); }
  static Node *as_value(std::uint64_t value) { return reinterpret_cast<Node *>(value | 1ull << 63); }
  Node *child(std::uint8_t key) const;
  bool insert(std::uint8_t key, Node *node);
  Node *grown() const;
};

template <unsigned Size, Kind Own> struct alignas(cache_line) Small : Node {
  alignas(16) std::uint8_t keys[16] = {};
  std::atomic<Node *> children[Size] = {};
  Small() : Node(Own) {}

  int place_of(std::uint8_t key) const {
    unsigned same;
    if constexpr (Size == 16) {
      __m128i all = _mm_load_si128(reinterpret_cast<const __m128i *>(keys));
      same = _mm_movemask_epi8(_mm_cmpeq_epi8(all, _mm_set1_epi8(static_cast<char>(key))));
    } else {
      same = 0;
      for (unsigned at = 0; at < Size; at++) same |= (keys[at] == key) << at;
    }
    same &= (1u << count.load()) - 1;
    return same ? std::countr_zero(same) : -1;
  }

  bool insert(std::uint8_t key, Node *node) {
    unsigned at = count.load();
    if (at == Size) return false;
    children[at].store(node, std::memory_order_release); // bug 1
#if BUG != 1
    persist(children[at]);
#endif
    keys[at] = key;
    persist(keys[at]);
    pm_assert(&children[at], sizeof children[at]);
    count.store(at + 1); // bug 3
#if BUG != 3
    persist(count);
#endif
    return true;
  }

  template <class Large> Node *copied() const {
    Large *large = new Large();
    for (unsigned at = 0; at < Size; at++) large->add(keys[at], children[at].load());
    large->finish(Size);
    return large;
  }
  void add(std::uint8_t key, Node *node) {
    unsigned at = count.load();
    keys[at] = key;
    children[at].store(node, std::memory_order_relaxed);
    count.store(at + 1); // bug 2
  }
  void finish(unsigned) {
#if BUG != 2
    persist(*this);
#endif
  }
};

struct alignas(cache_line) All : Node {
  std::atomic<Node *> children[256] = {};
  All() : Node(Kind::all) {}
  bool insert(std::uint8_t key, Node *node) {
    children[key].store(node, std::memory_order_release);
    persist(children[key]);
    return true;
  }
  void add(std::uint8_t key, Node *node) { children[key].store(node, std::memory_order_relaxed); }
  void finish(unsigned) { persist(*this); }
};

using Four = Small<4, Kind::four>;
using Sixteen = Small<16, Kind::sixteen>;

template <class Own> static Node *child_of(const Own *node, std::uint8_t key) {
  int at = node->place_of(key);
  return at < 0 ? nullptr : node->children[at].load();
}

Node *Node::child(std::uint8_t key) const {
  switch (kind) {
    case Kind::four: return child_of(static_cast<const Four *>(this), key);
    case Kind::sixteen: return child_of(static_cast<const Sixteen *>(this), key);
    default: return static_cast<const All *>(this)->children[key].load();
  }
}

bool Node::insert(std::uint8_t key, Node *node) {
  switch (kind) {
    case Kind::four: return static_cast<Four *>(this)->insert(key, node);
    case Kind::sixteen: return static_cast<Sixteen *>(this)->insert(key, node);
    default: return static_cast<All *>(this)->insert(key, node);
  }
}

Node *Node::grown() const {
  if (kind == Kind::four) return static_cast<const Four *>(this)->copied<Sixteen>();
  return static_cast<const Sixteen *>(this)->copied<All>();
}

class Tree {
  std::atomic<Node *> root{nullptr};

  static void insert(std::atomic<Node *> &place, std::uint8_t key, Node *node) {
    if (place.load()->insert(key, node)) return;
    Node *larger = place.load()->grown();
    pm_assert(larger, 32);
    place.store(larger, std::memory_order_release);
    persist(place);
    larger->insert(key, node);
  }

public:
  constexpr Tree() = default;
  void start() {
    if (root.load()) return;
    Node *node = new Four();
    clflush(node, sizeof(Four));
    root.store(node, std::memory_order_release);
    persist(root);
  }

  void put(std::uint16_t key, std::uint64_t value) {
    if (get(key)) return;
    Node *inner = root.load()->child(key >> 8);
    if (!inner) {
      inner = new Four();
      clflush(inner, sizeof(Four));
      insert(root, key >> 8, inner);
    }
    inner->insert(key & 255, Node::as_value(value));
  }

  std::uint64_t get(std::uint16_t key) const {
    const Node *inner = root.load() ? root.load()->child(key >> 8) : nullptr;
    const Node *leaf = inner ? inner->child(key & 255) : nullptr;
    if (leaf && !Node::is_value(leaf)) __builtin_trap();
    return leaf ? Node::value_of(leaf) : 0;
  }
};

PERSISTENT constinit Tree tree;

static std::uint16_t key_of(unsigned number) { return static_cast<std::uint16_t>(number * 37 % 19 << 8 | number % 5); }

int main() {
  for (unsigned number = 1; number <= 24; number++)
    if (std::uint64_t value = tree.get(key_of(number)); value && value != key_of(number) * 10u) __builtin_trap();
  tree.start();
  for (unsigned number = 1; number <= 24; number++) tree.put(key_of(number), key_of(number) * 10u);
  long long sum = 0;
  for (unsigned number = 1; number <= 30; number++) sum = sum * 3 + tree.get(key_of(number));
  print_i64(sum);
  return 0;
}

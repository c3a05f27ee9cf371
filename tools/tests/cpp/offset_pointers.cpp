// Pointers as distances from themselves, whose null is a distance of their own; tagged pointers; bits of addresses.
#include <cstdint>
#include <hippo.h>
template <class T> class Offset {
  std::int64_t distance = 1; // 1 is null: no object is one byte behind its pointer
public:
  Offset() = default;
  Offset(std::nullptr_t) {}
  Offset(T *to) { *this = to; }
  Offset(const Offset &from) { *this = from.get(); }
  Offset &operator=(const Offset &from) { return *this = from.get(); }
  Offset &operator=(T *to) {
    distance = to ? reinterpret_cast<std::intptr_t>(to) - reinterpret_cast<std::intptr_t>(this) : 1;
    return *this;
  }
  T *get() const { return distance == 1 ? nullptr : reinterpret_cast<T *>(reinterpret_cast<std::intptr_t>(this) + distance); }
  T *operator->() const { return get(); }
  T &operator*() const { return *get(); }
  explicit operator bool() const { return get(); }
  bool operator==(std::nullptr_t) const { return !get(); }
};
struct Node {
  long number = 0;
  Offset<Node> next;
};
PERSISTENT static Node *unused;
static Node nodes[4];
struct Tagged {
  std::uintptr_t bits = 0;
  void set(Node *node, unsigned tag) { bits = reinterpret_cast<std::uintptr_t>(node) | tag; }
  Node *node() const { return reinterpret_cast<Node *>(bits & ~std::uintptr_t(7)); }
  unsigned tag() const { return bits & 7; }
};
int main() {
  for (long number = 0; number < 4; number++) {
    nodes[number].number = number + 1;
    nodes[number].next = number ? &nodes[number - 1] : nullptr;
  }
  long sum = 0;
  for (Offset<Node> at = &nodes[3]; at; at = at->next) sum = sum * 10 + at->number;
  print_i64(sum);
  Node copy = nodes[2];
  print_i64(copy.next->number + (nodes[0].next == nullptr) * 10);
  Offset<Node> swapped[2] = {&nodes[1], nullptr};
  swapped[1] = swapped[0];
  print_i64((*swapped[1]).number);
  Tagged tagged;
  tagged.set(&nodes[2], 5);
  print_i64(tagged.node()->number * 10 + tagged.tag());
  std::uintptr_t high = reinterpret_cast<std::uintptr_t>(&nodes[1]) | 1ull << 63;
  print_i64((high >> 63) * 10 + reinterpret_cast<Node *>(high & ~(1ull << 63))->number);
  return 0;
}

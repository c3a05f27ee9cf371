// new at a place, aligned objects, arrays with their counts, and operators new and delete of a class.
#include <cstdint>
#include <hippo.h>
#include <new>

static long made, gone;
struct Item {
  long number = ++made;
  ~Item() { gone += number; }
};

struct alignas(64) Line {
  long words[8] = {1, 2, 3, 4, 5, 6, 7, 8};
};

struct Pooled {
  static inline unsigned char pool[256];
  static inline unsigned used;
  long a, b;
  static void *operator new(std::size_t size) { return pool + (used += size) - size; }
  static void operator delete(void *, std::size_t size) { used -= size; }
};

alignas(64) static unsigned char room[sizeof(Line) * 2];

int main() {
  Item *items = new Item[5];
  print_i64(items[4].number);
  delete[] items;
  print_i64(gone);
  Line *line = new (room) Line;
  Line *next = new (room + sizeof(Line)) Line{{9, 8}};
  print_i64(line->words[7] + next->words[0] * 10 + next->words[7]);
  print_i64(reinterpret_cast<std::uintptr_t>(next) % 64);
  next->~Line();
  Line *aligned = new Line;
  print_i64(reinterpret_cast<std::uintptr_t>(aligned) % 64);
  delete aligned;
  Line *several = new Line[3];
  print_i64(reinterpret_cast<std::uintptr_t>(several) % 64 + several[2].words[1]);
  delete[] several;
  Pooled *one = new Pooled{1, 2}, *two = new Pooled{3, 4};
  print_i64(Pooled::used + two->a - one->b);
  delete two;
  print_i64(Pooled::used);
  Item *checked = new (std::nothrow) Item;
  print_i64(checked != nullptr);
  delete checked;
  Item *none = nullptr;
  delete none;
  delete[] none;
  print_i64(gone);
  return 0;
}

// A hash table of buckets that are one cache line each; a full bucket has a next one. A key is stored after its value.
#include "flushing.h"
#include <atomic>
#include <new>
#include <optional>

namespace store {

template <typename Key, typename Value, unsigned Slots = 3> struct alignas(cache_line) Bucket {
  volatile std::uint32_t lock = 0;
  std::uint32_t unused = 0;
  Key keys[Slots] = {};
  Value values[Slots] = {};
  Bucket *next = nullptr;
};

template <typename Key, typename Value, std::size_t Count> class Table {
  using Line = Bucket<Key, Value>;
  static_assert(sizeof(Line) == cache_line);
  Line lines[Count];
  Arena<4096> more;
  alignas(cache_line) std::atomic<std::uint64_t> size{0};

  struct Guard {
    Line &line;
    explicit Guard(Line &given) : line(given) {
      while (__sync_val_compare_and_swap(&line.lock, 0, 1)) cpu_pause();
    }
    ~Guard() {
      __sync_lock_release(&line.lock);
      persist(line.lock);
    }
  };

  static std::size_t hash(Key key) { return (key * 0x9e3779b97f4a7c15 >> 32) % Count; }

  Line *linked(Line *last, Key key, Value value) {
    Line *line = new (more.take(sizeof(Line))) Line;
    line->values[0] = value; // bug 2
    line->keys[0] = key;
#if BUG != 2
    persist(*line);
#endif
    pm_assert(line, sizeof *line);
    last->next = line;
    persist(last->next);
    return line;
  }

public:
  constexpr Table() = default;

  bool put(Key key, Value value) {
    Line *line = &lines[hash(key)];
    Guard guard(*line);
    for (;; line = line->next) {
      for (unsigned slot = 0; slot < 3; slot++) {
        if (line->keys[slot] == key) return false;
        if (line->keys[slot]) continue;
        line->values[slot] = value; // bug 1
#if BUG != 1
        persist(line->values[slot]);
#endif
        pm_assert(&line->values[slot], sizeof(Value));
        line->keys[slot] = key;
        persist(line->keys[slot]);
        size.fetch_add(1); // bug 3
#if BUG != 3
        persist(size);
#endif
        return true;
      }
      if (!line->next) return linked(line, key, value);
    }
  }

  std::optional<Value> get(Key key) const {
    for (const Line *line = &lines[hash(key)]; line; line = line->next)
      for (unsigned slot = 0; slot < 3; slot++)
        if (line->keys[slot] == key) return line->values[slot];
    return std::nullopt;
  }

  // After a power cut no lock is held, and each key has its value.
  void recover() {
    for (Line &first : lines) {
      first.lock = 0;
      persist(first.lock);
      for (const Line *line = &first; line; line = line->next) {
        if (line != &first && !line->keys[0]) __builtin_trap();
        for (unsigned slot = 0; slot < 3; slot++)
          if (line->keys[slot] && line->values[slot] != line->keys[slot] * 10) __builtin_trap();
      }
    }
  }
};

} // namespace store

PERSISTENT constinit store::Table<std::uint64_t, std::uint64_t, 4> table;

int main() {
  table.recover();
  for (std::uint64_t key = 1; key <= 16; key++) table.put(key, key * 10);
  long long sum = 0;
  for (std::uint64_t key = 1; key <= 20; key++) sum += table.get(key).value_or(0);
  print_i64(sum);
  return 0;
}

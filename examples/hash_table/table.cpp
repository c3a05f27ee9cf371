// A hash table in persistent memory, in C++: buckets of one cache line, and further buckets when one is full.
#include <hippo.h>
#include <new>
#include <optional>

constexpr std::size_t cache_line = 64;

template <class T> void persist(const T &object) {
  for (std::size_t at = 0; at < sizeof object; at += cache_line) _mm_clwb(reinterpret_cast<const char *>(&object) + at);
  _mm_sfence();
}

template <class Key, class Value, unsigned Slots = 3> struct alignas(cache_line) Bucket {
  Key keys[Slots] = {};
  Value values[Slots] = {};
  Bucket *next = nullptr;
};

template <class Key, class Value, std::size_t Count> class Table {
  using Line = Bucket<Key, Value>;
  Line lines[Count];
  Line more[16];
  std::size_t used = 0;

  Line *link(Line *last, Key key, Value value) {
    Line *line = new (&more[used]) Line;
    used++;
    persist(used);
    line->keys[0] = key;
    line->values[0] = value;
    pm_assert(line, sizeof *line); // a bucket is durable before it is linked
    last->next = line;
    persist(last->next);
    return line;
  }

public:
  constexpr Table() = default;

  bool put(Key key, Value value) {
    for (Line *line = &lines[key % Count];; line = line->next) {
      for (unsigned slot = 0; slot < 3; slot++) {
        if (line->keys[slot] == key) return false;
        if (line->keys[slot]) continue;
        line->values[slot] = value;
        persist(line->values[slot]);
        line->keys[slot] = key;
        persist(line->keys[slot]);
        return true;
      }
      if (!line->next) return link(line, key, value);
    }
  }

  std::optional<Value> get(Key key) const {
    for (const Line *line = &lines[key % Count]; line; line = line->next)
      for (unsigned slot = 0; slot < 3; slot++)
        if (line->keys[slot] == key) return line->values[slot];
    return std::nullopt;
  }

  // After a power cut: each key has its value, and each further bucket has a key.
  bool is_whole() const {
    for (const Line &first : lines)
      for (const Line *line = &first; line; line = line->next) {
        if (line != &first && !line->keys[0]) return false;
        for (unsigned slot = 0; slot < 3; slot++)
          if (line->keys[slot] && line->values[slot] != line->keys[slot] * 10) return false;
      }
    return true;
  }
};

PERSISTENT constinit static Table<unsigned long, unsigned long, 2> table;

int main() {
  if (!table.is_whole()) __builtin_trap();
  for (unsigned long key = 1; key <= 8; key++) table.put(key, key * 10);
  unsigned long sum = 0;
  for (unsigned long key = 1; key <= 9; key++) sum += table.get(key).value_or(0);
  print_i64(sum);
  return 0;
}

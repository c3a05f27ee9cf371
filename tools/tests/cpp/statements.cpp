// Structured bindings, conditions with declarations, loops over ranges, switches, gotos, and enumerations.
#include <hippo.h>
#include <initializer_list>

enum class Colour : unsigned char { red = 3, green, blue };
enum Flags { none = 0, read_flag = 1, write_flag = 4 };

struct Pair {
  int first;
  long second;
};

struct Counter {
  struct Place {
    long at;
    bool operator!=(const Place &other) const { return at != other.at; }
    void operator++() { at += 2; }
    long operator*() const { return at; }
  };
  long end;
  Place begin() const { return {0}; }
  Place last() const { return {end}; }
};
static Counter::Place end(const Counter &counter) { return counter.last(); }
static Counter::Place begin(const Counter &counter) { return counter.begin(); }

static long named(Colour colour) {
  using enum Colour;
  switch (const int factor = 10; colour) {
    case red: return 1;
    case green: return 2;
    default: return static_cast<long>(colour) * factor;
  }
}

static long sum(std::initializer_list<long> items) {
  long found = 0;
  for (long item : items) found = found * 10 + item;
  return found;
}

namespace outer {
inline namespace second {
static long number() { return 12; }
}
namespace first {
static long number() { return 11; }
}
}

int main() {
  auto [first, second] = Pair{4, 5};
  Pair pairs[] = {{1, 2}, {3, 4}};
  for (auto &[one, two] : pairs) one += two;
  print_i64(first * 1000 + second * 100 + pairs[0].first * 10 + pairs[1].first);
  if (long number = read_i64(); number == 0) print_i64(number + 1);
  while (long number = read_i64()) {
    print_i64(number * 7);
    if (number > 2) break;
  }
  struct Own : Counter {} counter{{8}};
  long seen = 0;
  for (auto place = begin(counter), stop = end(counter); place != stop; ++place) seen = seen * 10 + *place;
  print_i64(seen);
  print_i64(named(Colour::red) + named(Colour::green) + named(Colour::blue));
  print_i64(sum({1, 2, 3}) + sum({}));
  print_i64(outer::number() + outer::first::number());
  int count = 0;
again:
  if (++count < 5) goto again;
  print_i64(count | read_flag | write_flag);
  union {
    long whole;
    int half[2];
  };
  whole = 0x500000003;
  print_i64(half[0] * 10 + half[1]);
  long array[2][3] = {{1, 2, 3}, {4, 5, 6}};
  auto &[row, other] = array;
  print_i64(row[2] * 10 + other[0]);
  return 0;
}

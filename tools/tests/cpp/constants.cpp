// What the compiler computes: tables, strings, and persistent data that have their value before the program starts.
#include <hippo.h>

constexpr long power(long base, int times) {
  long found = 1;
  while (times--) found *= base;
  return found;
}

template <unsigned Count> struct Primes {
  unsigned values[Count] = {};
  constexpr Primes() {
    unsigned found = 0;
    for (unsigned number = 2; found < Count; number++) {
      bool divided = false;
      for (unsigned at = 0; at < found; at++) divided |= number % values[at] == 0;
      if (!divided) values[found++] = number;
    }
  }
};

struct Header {
  unsigned long magic;
  unsigned version;
  char name[12];
  const Header *self;
  constexpr explicit Header(unsigned given) : magic(0xfeedface), version(given), name("hippo"), self(this) {}
};

static constexpr Primes<20> primes;
PERSISTENT static constinit Header header(3);
PERSISTENT static constinit long powers[] = {power(2, 1), power(2, 5), power(2, 10)};
consteval int twice(int number) { return number * 2; }
constexpr const char *words[] = {"one", "three", "fifteen"};
static_assert(power(3, 4) == 81);

int main() {
  print_i64(primes.values[19]);
  print_i64(header.magic + header.version + (header.self == &header) + header.name[4]);
  print_i64(powers[0] + powers[1] + powers[2]);
  print_i64(twice(21));
  long letters = 0;
  for (const char *word : words)
    while (*word) letters = letters * 3 + *word++;
  print_i64(letters);
  header.version++;
  pmem_persist(&header, sizeof header);
  print_i64(header.version);
  return 0;
}

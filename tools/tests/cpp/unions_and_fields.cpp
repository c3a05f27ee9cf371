// Unions with constructors, bit-fields in classes, packed members, enumerations with operators, and offsets of members.
#include <cstddef>
#include <cstring>
#include <hippo.h>
#include <new>
struct Packed {
  unsigned kind : 3;
  signed value : 13;
  bool last : 1;
  unsigned long wide : 40;
  bool operator==(const Packed &) const = default;
};
class Small {
  union {
    char inside[16];
    char *outside;
  };
  unsigned length : 31;
  bool is_long : 1;

public:
  explicit Small(const char *text) : length(std::strlen(text)), is_long(length >= sizeof inside) {
    char *to = is_long ? outside = new char[length + 1] : inside;
    std::memcpy(to, text, length + 1);
  }
  Small(const Small &) = delete;
  ~Small() {
    if (is_long) delete[] outside;
  }
  const char *text() const { return is_long ? outside : inside; }
  unsigned size() const { return length; }
};
union Value {
  long number;
  double real;
  struct {
    short low, high;
  } parts;
  constexpr Value() : number(3) {}
  explicit Value(double given) : real(given) {}
};
enum class Mode : unsigned { none = 0, read = 1, write = 2, all = 3 };
constexpr Mode operator|(Mode a, Mode b) { return static_cast<Mode>(static_cast<unsigned>(a) | static_cast<unsigned>(b)); }
constexpr bool has(Mode mode, Mode part) { return (static_cast<unsigned>(mode) & static_cast<unsigned>(part)) != 0; }
struct __attribute__((packed)) Tight {
  char tag;
  long number;
  short last;
};
int main() {
  Packed packed{5, -1000, true, 1ul << 39};
  packed.value += 7;
  packed.kind++;
  print_i64(packed.kind * 10000 + packed.value + packed.last + static_cast<long>(packed.wide >> 30));
  Packed copy = packed;
  print_i64((copy == packed) + sizeof(Packed));
  Small one("short"), two("a text that does not fit inside");
  print_i64(one.size() * 100 + two.size() + one.text()[4] + two.text()[30]);
  Value value, real(1.5);
  value.parts.high = 2;
  print_i64(value.number + (real.number >> 52));
  print_i64(has(Mode::read | Mode::write, Mode::write) + 2 * has(Mode::read, Mode::write) + static_cast<int>(Mode::all) * 10);
  Tight tight{1, 2, 3};
  std::memcpy(&tight.number, &value.number, sizeof tight.number);
  print_i64(tight.number + offsetof(Tight, last) + sizeof tight + alignof(Tight));
  return 0;
}

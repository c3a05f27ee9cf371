// A base that two bases share, with its table of offsets, and constructors of parts.
#include <hippo.h>

struct Base {
  long number;
  explicit Base(long given = 1) : number(given) { print_i64(number); }
  virtual ~Base() { print_i64(-number); }
  virtual long value() const { return number; }
};

struct Left : virtual Base {
  long left = 2;
  Left() : Base(20) {}
  long more() const { return left + number; }
};

struct Right : virtual Base {
  long right = 3;
  Right() : Base(30) {}
  long value() const override { return right * 100 + number; }
};

struct Both : Left, Right {
  long own = 4;
  Both() : Base(40) {}
};

struct Deeper : Both {
  long value() const override { return Both::value() + own; }
};

static long through(const Base &base) { return base.value(); }
static long from_left(const Left &left) { return left.more() * 10 + left.number; }

int main() {
  Both both;
  Deeper deeper;
  Left alone;
  print_i64(through(both));
  print_i64(through(deeper));
  print_i64(from_left(both) + from_left(alone));
  Base *base = &deeper;
  print_i64(static_cast<const Right &>(deeper).right + base->number);
  print_i64(sizeof both);
  return 0;
}

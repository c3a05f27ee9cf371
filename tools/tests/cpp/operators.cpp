// Operators of a class, the three-way comparison, conversions, literals of one's own.
#include <compare>
#include <hippo.h>

struct Fraction {
  long top, bottom;
  friend Fraction operator+(Fraction a, Fraction b) { return {a.top * b.bottom + b.top * a.bottom, a.bottom * b.bottom}; }
  Fraction operator-() const { return {-top, bottom}; }
  Fraction &operator*=(long factor) { return top *= factor, *this; }
  Fraction &operator++() { return top += bottom, *this; }
  Fraction operator++(int) {
    Fraction before = *this;
    ++*this;
    return before;
  }
  explicit operator bool() const { return top; }
  operator long() const { return top / bottom; }
  bool operator==(const Fraction &other) const { return top * other.bottom == other.top * bottom; }
  std::strong_ordering operator<=>(const Fraction &other) const { return top * other.bottom <=> other.top * bottom; }
};

static Fraction operator""_half(unsigned long long number) { return {static_cast<long>(number), 2}; }

struct Key {
  int page, slot;
  auto operator<=>(const Key &) const = default;
};

struct Table {
  long cells[3][3] = {};
  long &operator()(int row, int column) { return cells[row][column]; }
  long *operator[](int row) { return cells[row]; }
};

struct Chain {
  Fraction *held;
  Fraction *operator->() { return held; }
  Fraction &operator*() { return *held; }
};

static long operator,(Key key, long more) { return key.page * 100 + key.slot * 10 + more; }

int main() {
  Fraction one{1, 2}, sum = one + 3_half;
  print_i64(sum.top * 10 + sum.bottom);
  print_i64((sum *= 3).top + (-sum).top * 2);
  Fraction before = sum++;
  print_i64(before.top * 100 + sum.top);
  print_i64((one == Fraction{2, 4}) + 2 * (one < 3_half) + 4 * (one >= 1_half) + 8 * bool(Fraction{0, 3}));
  print_i64(static_cast<long>(7_half));
  print_i64((Key{1, 2} < Key{1, 3}) + 2 * (Key{2, 0} > Key{1, 9}) + 4 * (Key{1, 1} == Key{1, 1}) + 8 * (Key{0, 1} != Key{0, 1}));
  Table table;
  table(1, 2) = 7;
  table[2][1] = table[1][2] + 1;
  print_i64(table(2, 1) * 10 + table(1, 2));
  Chain chain{&sum};
  chain->top = 4;
  print_i64((*chain).top + chain->bottom);
  print_i64((Key{3, 4}, 5L));
  return 0;
}

// Expressions as types that are computed when they are assigned, and matrices of constant sizes.
#include <array>
#include <cstddef>
#include <hippo.h>
#include <utility>
template <class Left, class Right, class Operation> struct Binary {
  const Left &left;
  const Right &right;
  long operator[](std::size_t at) const { return Operation::apply(left[at], right[at]); }
};
struct Plus { static long apply(long a, long b) { return a + b; } };
struct Times { static long apply(long a, long b) { return a * b; } };
template <std::size_t Size> struct Vector {
  std::array<long, Size> items{};
  Vector() = default;
  template <class... Numbers> requires(sizeof...(Numbers) == Size) explicit Vector(Numbers... numbers) : items{static_cast<long>(numbers)...} {}
  template <class L, class R, class O> Vector &operator=(const Binary<L, R, O> &expression) {
    [&]<std::size_t... At>(std::index_sequence<At...>) { ((items[At] = expression[At]), ...); }(std::make_index_sequence<Size>{});
    return *this;
  }
  long operator[](std::size_t at) const { return items[at]; }
};
template <class L, class R> Binary<L, R, Plus> operator+(const L &left, const R &right) { return {left, right}; }
template <class L, class R> Binary<L, R, Times> operator*(const L &left, const R &right) { return {left, right}; }
template <std::size_t Rows, std::size_t Columns> struct Matrix {
  long cells[Rows][Columns] = {};
  template <std::size_t Other> Matrix<Rows, Other> times(const Matrix<Columns, Other> &other) const {
    Matrix<Rows, Other> found;
    for (std::size_t row = 0; row < Rows; row++)
      for (std::size_t column = 0; column < Other; column++)
        for (std::size_t at = 0; at < Columns; at++) found.cells[row][column] += cells[row][at] * other.cells[at][column];
    return found;
  }
};
int main() {
  Vector<4> a(1, 2, 3, 4), b(5, 6, 7, 8), c;
  c = a + b * a;
  print_i64(c[0] + c[1] * 100 + c[2] * 10000 + c[3] * 1000000);
  Matrix<2, 3> one{{{1, 2, 3}, {4, 5, 6}}};
  Matrix<3, 2> two{{{1, 0}, {0, 2}, {3, 1}}};
  auto product = one.times(two);
  print_i64(product.cells[0][0] * 1000 + product.cells[0][1] * 100 + product.cells[1][0] + product.cells[1][1]);
  return 0;
}

// Functions on floating-point numbers whose results are exact or rounded once.
#include <algorithm>
#include <bit>
#include <cmath>
#include <hippo.h>
#include <limits>
#include <numeric>
int main() {
  double x = static_cast<double>(read_i64()) + 2.5, y = static_cast<double>(read_i64());
  print_i64(std::bit_cast<long>(std::sqrt(x)) ^ std::bit_cast<long>(std::trunc(x * 7) + y));
  print_i64(std::lround(x) * 100 + std::llrint(x) * 10 + static_cast<long>(std::floor(-x)));
  print_i64(std::bit_cast<long>(std::fma(x, y, 0.1)));
  print_i64(std::bit_cast<int>(std::fmod(7.5f, static_cast<float>(x))));
  print_i64(std::isnan(std::numeric_limits<double>::quiet_NaN() * x) + 2 * std::isinf(y / 0.0) + 4 * std::signbit(-x));
  print_i64(std::bit_cast<long>(std::lerp(x, y, 0.25)) + std::bit_cast<long>(std::midpoint(x, y)));
  print_i64(static_cast<long>(std::clamp(x * 10, 1.0, 20.0)) + static_cast<long>(std::abs(-x) * 4));
  print_i64(std::gcd(84, 36) * 1000 + std::lcm(4, 6));
  print_i64(std::bit_cast<long>(std::ldexp(x, 40)) + std::ilogb(x));
  return 0;
}

// Complex numbers, arrays of values, limits and ratios.
#include <complex>
#include <hippo.h>
#include <limits>
#include <ratio>
#include <valarray>
int main() {
  std::complex<double> z(1.5, -2), w(0.25, 4);
  z += w;
  print_i64(static_cast<long>((z.real() + z.imag()) * 1000));
  print_i64(static_cast<long>(std::norm(z - w) * 100) + (std::conj(z) == z));
  std::valarray<long> numbers{1, 2, 3, 4, 5, 6};
  numbers = numbers * numbers + 1L;
  print_i64(numbers.sum() * 100 + numbers.max());
  std::valarray<long> even = numbers[std::slice(1, 3, 2)];
  print_i64(even[0] * 10000 + even[1] * 100 + even[2]);
  print_i64(std::numeric_limits<short>::max() + std::numeric_limits<double>::digits + std::numeric_limits<unsigned char>::digits10);
  using Third = std::ratio_add<std::ratio<1, 6>, std::ratio<1, 6>>;
  print_i64(Third::num * 10 + Third::den);
  return 0;
}

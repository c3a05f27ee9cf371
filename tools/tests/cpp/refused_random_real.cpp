// refused: refused_random_real.cpp:8: std::uniform_real_distribution::operator():
// refused: long double
#include <hippo.h>
#include <random>
int main() {
  std::mt19937_64 generator(5);
  std::uniform_real_distribution<double> real(0, 1);
  print_i64(static_cast<long>(real(generator) * 1000));
  return 0;
}

// A throw whose handler the own build runs: the run traps at the throw.
// trap: 9
#include <hippo.h>
#include <stdexcept>

static long halved(long number) {
  if (number & 1)
    // The constructor of the exception, and its text, are no part of the program.
    throw std::invalid_argument("odd" + std::string(number, '!'));
  return number / 2;
}

int main() {
  try {
    print_i64(halved(8));
    print_i64(halved(3));
  } catch (const std::exception &error) {
    print_i64(error.what()[0]);
  }
  return 0;
}

// std::vector::at beyond the end: the trap stands in the library's header, and the program prints what came before it.
// traps: in the library
#include <hippo.h>
#include <vector>
int main() {
  std::vector<int> numbers(3);
  print_i64(numbers.at(2));
  try {
    print_i64(numbers.at(5));
  } catch (...) {
    print_i64(-1);
  }
  return 0;
}

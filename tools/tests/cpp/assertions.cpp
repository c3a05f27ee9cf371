// A failed assertion of the library's own checks ends the run.
// traps: in the library
// clang: -w -std=c++20 -D_GLIBCXX_ASSERTIONS
#include <hippo.h>
#include <vector>
int main() {
  std::vector<int> numbers{1, 2, 3};
  print_i64(numbers[2]);
  print_i64(numbers[read_i64() + 3]);
  return 0;
}

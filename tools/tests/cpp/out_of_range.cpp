// An index beyond the end of a vector: the library throws, and the run traps at its line, which the user's line calls.
// trap: 10
#include <array>
#include <hippo.h>
struct Numbers {
  long items[4] = {1, 2, 3, 4};
  long at(unsigned long index) const {
    if (index > 3)
      // as std::array does
      std::__throw_out_of_range_fmt("%zu >= 4", index);
    return items[index];
  }
};

int main() {
  Numbers numbers;
  print_i64(numbers.at(3));
  try {
    print_i64(numbers.at(4));
  } catch (...) {
    print_i64(-1);
  }
  return 0;
}

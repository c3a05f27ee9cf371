// Text of std::cout, std::cerr and std::clog, with manipulators: nothing is written, and the streams stay good.
// options: --ignore-output
#include <hippo.h>
#include <iomanip>
#include <iostream>
#include <string>

int main() {
  std::ios::sync_with_stdio(false);
  std::cerr << "number " << 5 << ' ' << std::hex << 255 << std::endl;
  std::clog << std::boolalpha << true << std::setw(8) << 2.5 << std::string("text") << std::flush;
  print_i64(std::cerr.good() + 2 * !std::clog.fail());
  if (std::cerr << 7L) print_i64(3);
  return 0;
}

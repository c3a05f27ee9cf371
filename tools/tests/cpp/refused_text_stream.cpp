// refused: streams
#include <hippo.h>
#include <sstream>
int main() {
  std::ostringstream out;
  out << 5;
  print_i64(out.str().size());
  return 0;
}

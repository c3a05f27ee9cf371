// refused: of long double
#include <hippo.h>
int main() {
  volatile long double number = 2.5L;
  print_i64(static_cast<long>(number * 4));
  return 0;
}

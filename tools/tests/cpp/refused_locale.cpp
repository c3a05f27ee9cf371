// refused: refused_locale.cpp:7: std::locale: streams that read or format
// refused: what to do: print by std::cout with --ignore-output or --print-numbers
// no line: include/c++
#include <hippo.h>
#include <locale>
int main() {
  std::locale own("de_DE.UTF-8");
  print_i64(std::isalpha('x', own));
  return 0;
}

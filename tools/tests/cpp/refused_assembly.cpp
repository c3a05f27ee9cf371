// refused: refused_assembly.cpp:6: inline assembly 'rolq $$3, $0'
// refused: what to do: use <immintrin.h>
// no line: _ZL
#include <hippo.h>
template <class T> static T rotated(T number) {
  asm("rolq $3, %0" : "+r"(number));
  return number;
}
int main() {
  print_i64(rotated(read_i64()));
  return 0;
}

// operator new of a block that does not fit: it traps, also where the program would not use the block.
// traps: in the library
// options: --heap 64K
#include <hippo.h>
#include <new>
int main() {
  void *small = ::operator new(100, std::nothrow);
  print_i64(small != nullptr);
  void *large = ::operator new(1 << 20);
  print_i64(large == nullptr);
  ::operator delete(large);
  ::operator delete(small);
  return 0;
}

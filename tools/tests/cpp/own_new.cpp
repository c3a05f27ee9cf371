// A program that has its own operators new and delete: each form of the library calls them.
#include <cstdlib>
#include <hippo.h>
#include <new>
#include <string>
#include <vector>

static long taken, given;
void *operator new(std::size_t size) {
  taken += size;
  return std::malloc(size);
}
void operator delete(void *memory) noexcept {
  given += memory != nullptr;
  std::free(memory);
}

static void *volatile seen; // so that no pair of new and delete is left out
template <class T> static T *kept(T *made) {
  seen = made;
  return made;
}

int main() {
  delete kept(new long(5));
  print_i64(taken * 100 + given);
  delete[] kept(new long[4]);
  print_i64(taken * 100 + given);
  delete kept(new (std::nothrow) long);
  print_i64(taken * 100 + given);
  {
    std::vector<long> numbers(10);
    std::string text(100, 'x');
    print_i64(taken + numbers[9] + text[99]);
  }
  print_i64(given);
  return 0;
}

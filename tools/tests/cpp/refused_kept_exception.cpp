// refused: refused_kept_exception.cpp:13: std::rethrow_exception: no exception is thrown, so none is kept or handled
// refused: what to do: report errors by return values
// no line: include/c++
// no line: cpp:0
#include <exception>
#include <hippo.h>
#include <stdexcept>
static std::exception_ptr last;
static long work(long number) {
  std::exception_ptr kept;
  if (number < 0) kept = std::current_exception();
  if (!kept) return number;
  std::rethrow_exception(kept);
}
int main() {
  print_i64(work(read_i64()));
  return 0;
}

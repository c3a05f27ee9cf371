// refused: refused_future.cpp:9: std::future: one thread runs
// refused: refused_future.cpp:12: std::future::get: one thread runs
// no line: include/c++
// no line: no exception
// no line: cpp: std
// options: --single-thread
#include <future>
#include <hippo.h>
static std::promise<long> promise;
int main() {
  promise.set_value(read_i64());
  print_i64(promise.get_future().get());
  return 0;
}

// refused: refused_thread.cpp:7: std::thread: one thread runs
// options: --single-thread
#include <hippo.h>
#include <thread>
int main() {
  long number = 1;
  std::thread other([&] { number++; });
  other.join();
  print_i64(number);
  return 0;
}

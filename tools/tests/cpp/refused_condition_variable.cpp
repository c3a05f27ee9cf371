// refused: refused_condition_variable.cpp:11: std::condition_variable: one thread runs
// refused: refused_condition_variable.cpp:15: std::condition_variable::wait: one thread runs
// refused: what to do: call the work from main, or leave threads out under #ifdef
// no line: include/c++
// no line: <main
// options: --single-thread
#include <condition_variable>
#include <hippo.h>
#include <mutex>
static std::mutex lock;
static std::condition_variable changed;
static bool is_ready;
int main() {
  std::unique_lock held(lock);
  changed.wait(held, [] { return is_ready; });
  print_i64(is_ready);
  return 0;
}

// thread_local objects: made before their first use, destroyed before the objects of the program and the functions of atexit.
// options: --single-thread
#include <cstdlib>
#include <hippo.h>

struct Noted {
  long number;
  explicit Noted(long given) : number(given) { print_i64(number); }
  ~Noted() { print_i64(-number); }
};

static Noted global(1);
static thread_local Noted of_thread(2);
static thread_local long count = 40;

static long next() {
  thread_local Noted inside(3);
  return inside.number + count++;
}

static void last() { print_i64(70); }

int main() {
  std::atexit(last);
  print_i64(next() + next());
  print_i64(of_thread.number);
  static Noted late(4);
  print_i64(count);
  return 0;
}

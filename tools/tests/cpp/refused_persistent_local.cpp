// refused: refused_persistent_local.cpp:8: the persistent global @opened()::journal is initialised at each start of the program
#include <hippo.h>
struct Journal {
  long count;
  explicit Journal(long start) : count(start) {}
};
static Journal &opened() {
  PERSISTENT static Journal journal(read_i64());
  return journal;
}
int main() {
  print_i64(++opened().count);
  return 0;
}

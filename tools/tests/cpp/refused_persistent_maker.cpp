// refused: the persistent global @journal is initialised at each start of the program
#include <hippo.h>
struct Journal {
  long count;
  explicit Journal(long start) : count(start) {}
};
PERSISTENT Journal journal(1);
int main() {
  print_i64(++journal.count);
  return 0;
}

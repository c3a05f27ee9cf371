// A heap that is full: no null pointer without std::nothrow, and the function that may give memory back.
// options: --heap 64K
#include <hippo.h>
#include <new>

static char *volatile kept;
static long calls;
static void give_back() {
  calls++;
  delete[] kept;
  kept = nullptr;
  std::set_new_handler(nullptr);
}

int main() {
  kept = new char[40000];
  print_i64(std::get_new_handler() == nullptr);
  char *volatile none = new (std::nothrow) char[1ul << 50];
  print_i64(none == nullptr);
  std::set_new_handler(give_back);
  print_i64(std::get_new_handler() == give_back);
  char *volatile more = new (std::nothrow) char[1ul << 50];
  print_i64(more == nullptr);
  print_i64(calls);
  char *volatile later = new char[40000];
  print_i64(later != nullptr);
  delete[] later;
  return 0;
}

// A file of C and one of C++: functions that call each other, data that both name, a function of C++ called by a pointer from C.
// files: ../cpp_more/with_c_other.c
// clang: -w
#include <hippo.h>

extern "C" {
struct record {
  long key;
  int inline_count;
};
extern struct record records[3];
long fold(const struct record *from, int count, long (*function)(long, const struct record *));
long twice_in_cpp(long number);
}

template <class T> static T doubled(T number) { return number + number; }
long twice_in_cpp(long number) { return doubled(number) + 1; }

static long add(long sum, const record *given) { return sum * 10 + given->key; }

int main() {
  print_i64(fold(records, 3, add));
  print_i64(fold(records, 2, [](long sum, const record *given) { return sum + given->inline_count; }));
  records[1].key = 9;
  print_i64(fold(records, 3, add));
  return 0;
}

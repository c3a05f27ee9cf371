// typeid of objects and of types: equality, names, and keys of an order.
#include <hippo.h>
#include <typeindex>
#include <typeinfo>

namespace kinds {
struct Base { virtual ~Base() {} };
struct One : Base {};
template <class T> struct Box : Base { T held; };
}

static long letters(const char *name) {
  long sum = 0;
  while (*name) sum = sum * 31 + *name++;
  return sum;
}

int main() {
  kinds::One one;
  kinds::Box<int> box;
  const kinds::Base *base = &one, *other = &box;
  print_i64(typeid(*base) == typeid(kinds::One));
  print_i64(typeid(*base) == typeid(*other));
  print_i64(typeid(*other) != typeid(kinds::Box<long>));
  print_i64(letters(typeid(*other).name()));
  print_i64(letters(typeid(kinds::Base).name()));
  print_i64(std::type_index(typeid(*base)) == std::type_index(typeid(one)));
  print_i64(typeid(kinds::One).before(typeid(kinds::Base)) != typeid(kinds::Base).before(typeid(kinds::One)));
  print_i64(typeid(int) == typeid(const int));
  print_i64(letters(typeid(unsigned long).name()) + letters(typeid(char *).name()));
  return 0;
}

// std::any: what it holds, small and large, and questions about another type.
#include <any>
#include <hippo.h>
#include <string>

struct Large {
  long words[6] = {1, 2, 3, 4, 5, 6};
};

int main() {
  std::any any = 5;
  print_i64(std::any_cast<int>(any));
  print_i64(std::any_cast<long>(&any) == nullptr);
  any = std::string("forty-two letters are not in this text");
  print_i64(std::any_cast<const std::string &>(any).size());
  any = Large{};
  print_i64(std::any_cast<Large &>(any).words[5]);
  std::any copy = any;
  std::any_cast<Large>(&copy)->words[5] = 9;
  print_i64(std::any_cast<Large &>(any).words[5] + std::any_cast<Large &>(copy).words[5]);
  any.reset();
  print_i64(any.has_value() + 2 * copy.has_value() + 4 * (copy.type() == typeid(Large)));
  return 0;
}

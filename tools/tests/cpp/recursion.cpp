// Functions and objects that nest: trees with owners, memoised functions, mutual recursion, expressions that are parsed.
#include <hippo.h>
#include <map>
#include <memory>
#include <string_view>
struct Tree {
  long key;
  std::unique_ptr<Tree> left, right;
  explicit Tree(long given) : key(given) {}
  void put(long given) {
    auto &side = given < key ? left : right;
    if (side) side->put(given);
    else side = std::make_unique<Tree>(given);
  }
  long depth() const {
    long a = left ? left->depth() : 0, b = right ? right->depth() : 0;
    return 1 + (a > b ? a : b);
  }
  template <class Function> void walk(Function &&function) const {
    if (left) left->walk(function);
    function(key);
    if (right) right->walk(function);
  }
};
static long ways(long steps) {
  static std::map<long, long> known;
  if (steps < 2) return 1;
  if (auto found = known.find(steps); found != known.end()) return found->second;
  return known[steps] = ways(steps - 1) + ways(steps - 2);
}
class Parser {
  std::string_view text;
  long factor() {
    if (text[0] == '(') {
      text.remove_prefix(1);
      long inner = sum();
      text.remove_prefix(1);
      return inner;
    }
    long number = 0;
    for (; !text.empty() && text[0] >= '0' && text[0] <= '9'; text.remove_prefix(1)) number = number * 10 + text[0] - '0';
    return number;
  }
  long product() {
    long found = factor();
    for (; !text.empty() && text[0] == '*'; found *= factor()) text.remove_prefix(1);
    return found;
  }
  long sum() {
    long found = product();
    while (!text.empty() && (text[0] == '+' || text[0] == '-')) {
      bool plus = text[0] == '+';
      text.remove_prefix(1);
      found += plus ? product() : -product();
    }
    return found;
  }

public:
  explicit Parser(std::string_view given) : text(given) {}
  long value() { return sum(); }
};
int main() {
  Tree tree(50);
  for (long number = 1; number < 30; number++) tree.put(number * 37 % 101);
  long sum = 0, place = 0;
  tree.walk([&](long key) { sum += key * ++place; });
  print_i64(sum * 100 + tree.depth());
  print_i64(ways(60));
  print_i64(Parser("2*(3+4)*5-(6-1)*(2+2*3)").value());
  return 0;
}

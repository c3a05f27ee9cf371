// Values of several types, optional values, tuples and pairs.
#include <hippo.h>
#include <optional>
#include <string>
#include <tuple>
#include <variant>
struct Text {
  std::string text;
};
template <class... Functions> struct Overloaded : Functions... {
  using Functions::operator()...;
};
static std::optional<long> halved(long number) {
  if (number % 2) return std::nullopt;
  return number / 2;
}
int main() {
  std::variant<std::monostate, long, Text, double> values[] = {{}, 5L, Text{"four"}, 2.5};
  long sum = 0;
  for (const auto &value : values)
    sum = sum * 10 + std::visit(Overloaded{[](std::monostate) { return 1L; }, [](long number) { return number; },
                                           [](const Text &text) { return static_cast<long>(text.text.size()); },
                                           [](double number) { return static_cast<long>(number * 2); }}, value);
  print_i64(sum);
  values[0] = Text{"a longer text than the others have, in another block"};
  std::swap(values[0], values[1]);
  print_i64(values[0].index() * 10 + values[1].index() + std::get<Text>(values[1]).text.size());
  print_i64(std::get_if<long>(&values[2]) == nullptr);
  print_i64(halved(6).value_or(0) * 100 + halved(7).value_or(9) * 10 + halved(8).has_value());
  std::optional<Text> text;
  text.emplace("abc");
  print_i64(text->text.size() + (text ? 10 : 0));
  std::tuple<int, std::string, long> tuple{1, "two", 3};
  auto &[one, two, three] = tuple;
  three += one;
  print_i64(std::get<long>(tuple) * 10 + two.size());
  print_i64(std::apply([](int a, const std::string &b, long c) { return a + static_cast<long>(b.size()) + c; }, tuple));
  print_i64((std::tuple(1, 2, 3) < std::tuple(1, 3, 0)) + 2 * (std::pair(1, 'a') == std::pair(1, 'b')));
  int a, b;
  std::tie(a, std::ignore, b) = std::tuple(4, 5, 6);
  print_i64(a * 10 + b + std::tuple_size_v<decltype(tuple)>);
  return 0;
}

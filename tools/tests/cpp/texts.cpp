// Strings: short and long ones, searches, replacements, views, and reading of words.
#include <algorithm>
#include <cctype>
#include <hippo.h>
#include <string>
#include <string_view>
#include <vector>
static long sum(std::string_view text) {
  long found = 7;
  for (char letter : text) found = found * 31 + letter;
  return found;
}
static std::vector<std::string_view> words_of(std::string_view text) {
  std::vector<std::string_view> found;
  while (!text.empty()) {
    std::size_t end = text.find(' ');
    found.push_back(text.substr(0, end));
    text.remove_prefix(end == text.npos ? text.size() : end + 1);
  }
  return found;
}
int main() {
  std::string text = "persistent";
  text += " memory";
  text.append(3, '!').insert(0, "the ");
  print_i64(sum(text));
  print_i64(text.find("mem") * 100 + text.rfind('e') + text.find_first_of("xyzs") * 10000);
  text.replace(4, 10, "volatile").erase(text.size() - 2);
  print_i64(sum(text) + text.size());
  print_i64(text.compare(0, 3, "the") * 10 + text.starts_with("the") + (text.substr(4, 8) == "volatile"));
  std::string copy = std::move(text);
  text = copy.substr(0, 3) + copy.c_str()[4];
  print_i64(sum(text) + copy.size());
  std::transform(copy.begin(), copy.end(), copy.begin(), [](unsigned char letter) { return std::toupper(letter); });
  std::reverse(copy.begin(), copy.end());
  print_i64(sum(copy));
  long lengths = 0;
  for (std::string_view word : words_of("a flush and then a fence")) lengths = lengths * 10 + word.size();
  print_i64(lengths);
  std::string lines;
  for (int number = 0; number < 50; number++) lines += std::to_string(number) + '\n';
  print_i64(lines.size() * 1000 + std::count(lines.begin(), lines.end(), '1'));
  lines.clear();
  lines.shrink_to_fit();
  print_i64(lines.capacity());
  print_i64(std::hash<std::string>{}("hashed the same way as natively, byte by byte") % 1000003);
  return 0;
}

// refused: refused_regex.cpp:6: std::regex: streams that read or format
// options: --single-thread --ignore-output
#include <hippo.h>
#include <regex>
int main() {
  print_i64(std::regex_match("abc", std::regex("a.c")));
  return 0;
}

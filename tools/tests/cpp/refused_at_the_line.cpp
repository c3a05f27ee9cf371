// refused: refused_at_the_line.cpp:12: std::ifstream: streams that read or format: std::cout, std::cerr alone have a form
// refused: refused_at_the_line.cpp:18: std::ostringstream: streams that read or format
// refused: refused_at_the_line.cpp:23: std::filesystem::path: a file system has no form
// refused: what to do: print by std::cout with --ignore-output or --print-numbers; read by read_i64
// no line: include/c++
#include <filesystem>
#include <fstream>
#include <hippo.h>
#include <sstream>

static long load(const char *name) {
  std::ifstream in(name);
  long number = 0;
  in >> number;
  return number;
}
static std::string text(long number) {
  std::ostringstream out;
  out << number;
  return out.str();
}
int main() {
  print_i64(std::filesystem::exists("x"));
  print_i64(load("x") + text(3).size());
  return 0;
}

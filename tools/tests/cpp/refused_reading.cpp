// refused: refused_reading.cpp:11: std::cin: streams that read or format
// refused: refused_reading.cpp:13: std::cin: streams that read or format
// no line: include/c++
// options: --ignore-output
#include <hippo.h>
#include <iostream>
#include <string>
int main() {
  long number = 0;
  std::string line;
  std::cin >> number;
  std::cout << number << std::endl;
  std::getline(std::cin, line);
  print_i64(line.size());
  return 0;
}

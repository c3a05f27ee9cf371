// Numbers to text and back: std::to_string, std::stod, std::stoi, std::to_chars, std::from_chars.
#include <charconv>
#include <hippo.h>
#include <string>

static long sum(const std::string &text) {
  long found = 0;
  for (char letter : text) found = found * 31 + letter;
  return found;
}

int main() {
  print_i64(sum(std::to_string(2.5)));
  print_i64(sum(std::to_string(-123456789.0625f)));
  print_i64(sum(std::to_string(1e300)));
  print_i64(sum(std::to_string(-9223372036854775807L - 1)));
  print_i64(sum(std::to_string(18446744073709551615UL)));
  print_i64(static_cast<long>(std::stod("2.5e3xyz") * 10));
  print_i64(static_cast<long>(std::stof("-0.375") * 1000));
  std::size_t end = 0;
  print_i64(std::stoi("123 rest", &end) + 1000 * end);
  print_i64(std::stol("ff", nullptr, 16) + std::stoul("777", nullptr, 8) + std::stoll("-5"));
  char text[24];
  auto written = std::to_chars(text, text + sizeof text, -4567);
  print_i64(sum(std::string(text, written.ptr)));
  written = std::to_chars(text, text + 2, 4567);
  print_i64(written.ec == std::errc::value_too_large);
  long number = 0;
  auto read = std::from_chars("00991x", "00991x" + 6, number);
  print_i64(number + (read.ec == std::errc()));
  int small = 7;
  print_i64((std::from_chars(text, text, small).ec == std::errc::invalid_argument) + small);
  return 0;
}

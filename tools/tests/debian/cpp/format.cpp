// {fmt}: texts in persistent memory, with numbers of all kinds.
#include "persistent_memory.hpp"
#include <fmt/compile.h>
#include <fmt/format.h>
#include <fmt/ranges.h>

template <class... Words> static void put(fmt::format_string<Words...> format, Words &&...words) {
  char *line = static_cast<char *>(persistent::take(128, 64));
  auto end = fmt::format_to_n(line, 127, format, std::forward<Words>(words)...);
  *end.out = 0;
  persistent::persist(line, 128);
  persistent::Digest digest;
  digest.add(line);
  print_i64(static_cast<long long>(end.size));
  digest.print();
}

int main() {
  for (int i = 0; i < 6; i++) put("page {:>6} of {:#x}, {:08b}", draw(1000), draw(65536), draw(256));
  put("{} {:.3f} {:e} {:g} {:a}", 0.1, 3.14159, 1e300, 1e-5, 2.5);
  put("{:*^20}|{:+d}|{:c}|{}|{:p}", "mid", 42, 'x', true, static_cast<void *>(nullptr));
  put("{1} {0} {name}", 1, 2, fmt::arg("name", "value"));
  put("{}", fmt::join(std::initializer_list<int>{1, 2, 3}, ", "));
  put("{}", __int128(1) << 100);
  std::string text = fmt::format(FMT_COMPILE("{}:{:x}"), 12345, 48879);
  print_i64(static_cast<long long>(text.size()));
  print_i64(text[3]);
  return 0;
}

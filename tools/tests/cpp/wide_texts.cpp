// Strings of wide characters, and of 16 and 32 bits.
#include <cwchar>
#include <hippo.h>
#include <string>
#include <string_view>

int main() {
  std::wstring text = L"abc";
  text += L"defghijklmnopqrstuvwxyz";
  text.insert(3, L"--");
  print_i64(text.size() * 1000 + text.find(L"xyz"));
  print_i64(text.substr(2, 4).compare(L"c--d"));
  text.erase(0, 5).resize(40, L'.');
  print_i64(text.rfind(L'z') * 1000 + text.find_last_not_of(L'.'));
  std::u16string narrow = u"xy";
  std::u32string wide = U"xyz";
  wide.append(30, U'!');
  print_i64(narrow.size() + wide.size());
  std::wstring_view view = text;
  print_i64(view.starts_with(L"def") + 2 * view.ends_with(L"..."));
  print_i64(std::wcscmp(L"ab", L"abc") < 0);
  print_i64(std::wmemcmp(L"abd", L"abc", 3) > 0);
  std::u8string eight = u8"\u00e9";
  print_i64(eight.size());
  return 0;
}

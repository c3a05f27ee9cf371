// utfcpp: texts in UTF-8, UTF-16 and UTF-32 in persistent arrays.
#include "persistent_memory.hpp"
#include <iterator>
#include <string_view>
#include <utf8.h>

struct Store {
  char bytes[512];
  unsigned short units[256];
  unsigned points[256];
};
PERSISTENT static Store store;

int main() {
  std::string_view text = "Gr\xc3\xbc\xc3\x9f" "e \xe2\x82\xac 5 \xf0\x9f\x98\x80 \xff broken \xe2\x82 end";
  char *end = utf8::replace_invalid(text.begin(), text.end(), store.bytes);
  print_i64(end - store.bytes);
  print_i64(utf8::is_valid(text.begin(), text.end()));
  print_i64(utf8::find_invalid(text.begin(), text.end()) - text.begin());
  unsigned short *units = utf8::utf8to16(store.bytes, end, store.units);
  unsigned *points = utf8::utf8to32(store.bytes, end, store.points);
  print_i64((units - store.units) * 1000 + (points - store.points));
  persistent::persist(store.units, sizeof store.units);
  char *more = end;
  for (int i = 0; i < 40; i++) more = utf8::append(draw(0xd000) + 1, more);
  more = utf8::utf16to8(store.units, units, more);
  persistent::Digest digest;
  for (const char *at = store.bytes; at < more;) digest.add(utf8::unchecked::next(at));
  digest.print();
  print_i64(utf8::distance(store.bytes, more));
  const char *last = more;
  for (int i = 0; i < 5; i++) digest.add(utf8::prior(last, static_cast<const char *>(store.bytes)));
  digest.print();
  persistent::persist(&store, sizeof store);
  return 0;
}

// Redis's strings, in persistent memory.
#include "draw.h"
#include "sds.h"
#include <string.h>

static long long sum_of(const char *text) {
  long long sum = 0;
  for (size_t i = 0; i < sdslen((sds)text); i++) sum = (sum * 31 + (unsigned char)text[i]) % 1000000007;
  return sum;
}

int main(void) {
  sds text = sdsempty();
  for (int i = 0; i < 60; i++) {
    text = sdscatprintf(text, "%d:%s,", i, i % 2 ? "odd" : "even");
    text = sdscatfmt(text, "%i|%u|%s;", (int)draw(100) - 50, draw(1000), "x");
  }
  print_i64((long long)sdslen(text));
  print_i64(sum_of(text));
  sds other = sdsdup(text);
  sdsrange(other, 10, -20);
  sdstoupper(other);
  print_i64(sum_of(other));
  print_i64(sdscmp(text, other) > 0);
  int count;
  sds *parts = sdssplitlen(text, (ssize_t)sdslen(text), ",", 1, &count);
  print_i64(count);
  sds joined = sdsjoinsds(parts, count, "--", 2);
  print_i64(sum_of(joined));
  sdsfreesplitres(parts, count);
  sds quoted = sdscatrepr(sdsempty(), "a\n\"b\"\x01", 6);
  print_i64(sum_of(quoted));
  sdsfree(joined);
  sdsfree(quoted);
  sdsfree(other);
  sdsfree(text);
  return 0;
}

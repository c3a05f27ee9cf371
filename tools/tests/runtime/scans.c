#include "check.h"
#include <stdio.h>
#include <stdlib.h>
#include <string.h>
#include <wchar.h>

static const char *const TEXTS[] = {"", " ", "12", "-12 +34", "12abc34", "  7,8 ,9", "0x1f 077 99", "word other", "key=value;x",
                                    "a1-b2", "%5", "99999999999999999999 99999999999999999999", "-99999999999999999999 -18446744073709551615",
                                    "18446744073709551615 18446744073709551616", "-9223372036854775808 -9223372036854775809",
                                    "0xffffffffffffffffff 0777777777777777777777777", "9223372036854775807 9223372036854775808", "999999999999 1", "3 4 5 6", "\t\n42",
                                    "0x", "0xg 1", "-0X 08", "0x1fg", "(nil) (NIL)3", "(nil", "00 0b1"};

static void numbers(const char *text) {
  int a = 1, b = 2, c = 3;
  note(sscanf(text, "%d %d %d", &a, &b, &c));
  note(a + 3 * b + 9 * c);
  note(sscanf(text, "%i , %i ,%i", &a, &b, &c));
  note(a + 3 * b + 9 * c);
  unsigned u = 5, v = 6;
  note(sscanf(text, "%x %o", &u, &v));
  note(u + 3u * v);
  note(sscanf(text, "%2u%*d%u", &u, &v));
  note(u + 3u * v);
  long l = 7;
  short s = 8;
  signed char h = 9;
  size_t z = 10;
  note(sscanf(text, "%ld%hd%hhd%zu", &l, &s, &h, &z));
  note(l + s + h + (long)z);
  note(sscanf(text, "%5d%n", &a, &b));
  note(a + 3 * b);
}

static void large(const char *text) {
  long a = 1, b = 2;
  unsigned long u = 3, v = 4;
  int c = 5, d = 6;
  unsigned short s = 7, t = 8;
  note(sscanf(text, "%ld %ld", &a, &b));
  note(a + 3 * b);
  note(sscanf(text, "%lu %lu", &u, &v));
  note(u + 3 * v);
  note(sscanf(text, "%d %u", &c, &d));
  note(c + 3 * d);
  note(sscanf(text, "%hd %hu", &s, &t));
  note(s + 3 * t);
  note(sscanf(text, "%li %lx", &a, &u));
  note(a + 3 * u);
  note(sscanf(text, "%2$ld %1$ld", &a, &b));
  note(a + 3 * b);
  note(sscanf(text, "%'d %Id", &c, &d));
  note(c + 3 * d);
}

static void prefixes(const char *text) {
  int a = 1, n = 2;
  unsigned u = 3;
  char c = 4, d = 5;
  void *p = &a, *q = &n;
  note(sscanf(text, "%i%n%c", &a, &n, &c));
  note(a + 3 * n + 9 * c);
  note(sscanf(text, "%x%c%n", &u, &c, &n));
  note(u + 3 * c + 9 * n);
  note(sscanf(text, "%2x%c", &u, &d));
  note(u + 3 * d);
  note(sscanf(text, "%1i%c", &a, &d));
  note(a + 3 * d);
  note(sscanf(text, "%p %5p%n", &p, &q, &n));
  note((p == NULL) + 2 * (q == NULL) + 4 * n);
  note(sscanf(text, "%4p", &q));
}

static void allocated(const char *text) {
  char *a = NULL, *b = NULL, c[40];
  wchar_t w[40];
  memset(w, 0, sizeof w);
  note(sscanf(text, "%ms %m[a-z]", &a, &b));
  if (a) note_bytes(a, strlen(a) + 1);
  if (b) note_bytes(b, strlen(b) + 1);
  note(sscanf(text, "%2mc", &a));
  if (a) note_bytes(a, 1);
  note(sscanf(text, "%39ls", w));
  note(sscanf(text, "%2$s %1$39l[a-z]", w, c));
  for (int i = 0; i < 40; i++) note(w[i]);
}

static void words(const char *text) {
  char a[40], b[40], c[40];
  memset(a, 'q', sizeof a);
  memset(b, 'r', sizeof b);
  memset(c, 's', sizeof c);
  note(sscanf(text, "%39s %5s", a, b));
  note(sscanf(text, "%39[a-z]=%39[^;];%c", b, c, a));
  note(sscanf(text, "%3c%c", c, b));
  note(sscanf(text, "%39[^]]%39[]x]", a, b));
  note(sscanf(text, "%[0-9-]%%", c));
  note(sscanf(text, "%%%c", c));
  note_bytes(a, sizeof a);
  note_bytes(b, sizeof b);
  note_bytes(c, sizeof c);
}

int main(void) {
  for (unsigned i = 0; i < sizeof TEXTS / sizeof *TEXTS; i++) {
    numbers(TEXTS[i]);
    print_sum();
    large(TEXTS[i]);
    print_sum();
    prefixes(TEXTS[i]);
    print_sum();
    allocated(TEXTS[i]);
    print_sum();
    words(TEXTS[i]);
    print_sum();
  }
  return 0;
}

#include "check.h"
#include <ctype.h>
#include <errno.h>
#include <inttypes.h>
#include <stdlib.h>
#include <string.h>
#include <strings.h>

static const char *const TEXTS[] = {
    "", " ", "0", "00", "-0", "+7", "  \t\n42abc", "- 3", "--3", "0x", "0x1F", "0X1fg", "-0xff", "0xg", "010", "089", "z", "Zz9",
    "9223372036854775807", "9223372036854775808", "-9223372036854775808", "-9223372036854775809", "18446744073709551615",
    "18446744073709551616", "-18446744073709551615", "-18446744073709551616", "99999999999999999999999", "1101", "777", "-5",
    "2147483647", "-2147483648", "\v\f\r12"};

static void texts(const char *text, int base) {
  char *end = NULL;
  errno = 0;
  note(strtol(text, &end, base));
  note(end ? end - text : -1);
  note(errno);
  errno = 0;
  note((long long)strtoul(text, &end, base));
  note(end ? end - text : -1);
  note(errno);
  note(strtoll(text, NULL, base));
  note((long long)strtoull(text, &end, base));
  note(strtoimax(text, &end, base));
  note((long long)strtoumax(text, NULL, base));
}

static void readings(void) {
  for (unsigned i = 0; i < sizeof TEXTS / sizeof *TEXTS; i++) {
    for (int base = 0; base <= 36; base += base == 0 ? 2 : base == 2 ? 6 : base == 8 ? 2 : base == 10 ? 6 : 20)
      texts(TEXTS[i], base);
    note(atoi(TEXTS[i]));
    note(atol(TEXTS[i]));
    note(atoll(TEXTS[i]));
    print_sum();
  }
}

static void arithmetic(void) {
  for (int i = 0; i < 100; i++) {
    long a = (long)((uint64_t)draw(1u << 31) << draw(32)), b = (long)draw(1000) + 1;
    if (draw(2)) a = -a;
    if (draw(2)) b = -b;
    note(abs((int)b));
    note(labs(a));
    note(llabs(a));
    note(imaxabs(a));
    div_t small = div((int)a, (int)b);
    ldiv_t large = ldiv(a, b);
    lldiv_t larger = lldiv(a, b);
    note(small.quot);
    note(small.rem);
    note(large.quot);
    note(large.rem);
    note(larger.quot);
    note(larger.rem);
    note(ffs((int)a));
    note(ffsl(a));
    note(ffsll(a));
  }
  print_sum();
}

static void characters(void) {
  static int (*const tests[])(int) = {isalnum, isalpha, isblank, iscntrl, isdigit,  isgraph, islower,
                                      isprint, ispunct, isspace, isupper, isxdigit, isascii};
  for (unsigned i = 0; i < sizeof tests / sizeof *tests; i++) {
    for (int c = -1; c < 256; c++) note(tests[i](c) != 0);
    print_sum();
  }
  for (int c = -1; c < 256; c++) {
    note((tolower)(c));
    note((toupper)(c));
    note(toascii(c));
    note(isalpha(c) != 0);
    note(isspace(c) != 0);
    note(ispunct(c) != 0);
    note(tolower(c) + toupper(c));
  }
  print_sum();
  for (int c = -128; c < 256; c++) {
    note((*__ctype_b_loc())[c]);
    note((*__ctype_tolower_loc())[c]);
    note((*__ctype_toupper_loc())[c]);
  }
  print_sum();
}

int main(void) {
  readings();
  arithmetic();
  characters();
  return 0;
}

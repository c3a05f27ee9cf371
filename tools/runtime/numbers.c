// Numbers that are read from texts. This file does not include <stdlib.h>, which may rename these functions.
#include <errno.h>
#include <limits.h>
#include <stddef.h>
#include <stdint.h>

int isspace(int character);

// The number that a text has: without its sign, with the first character after it, and whether it overflows 64 bits.
struct reading {
  unsigned long long number;
  const char *end;
  int negative, overflow;
};

static int digit_of(char c) {
  if (c >= '0' && c <= '9') return c - '0';
  if (c >= 'a' && c <= 'z') return c - 'a' + 10;
  if (c >= 'A' && c <= 'Z') return c - 'A' + 10;
  return INT_MAX;
}

// The first digit, after a prefix that the base allows and that a digit follows. A base of 0 becomes that of the prefix.
static const char *after_prefix(const char *text, int *base) {
  int prefixed = text[0] == '0' && (text[1] == 'x' || text[1] == 'X') && digit_of(text[2]) < 16;
  if (prefixed && (*base == 0 || *base == 16)) {
    *base = 16;
    return text + 2;
  }
  if (*base == 0) *base = *text == '0' ? 8 : 10;
  return text;
}

static void read_digits(struct reading *reading, const char *text, int base) {
  for (; digit_of(*text) < base; text++) {
    unsigned digit = digit_of(*text);
    if (reading->number > (ULLONG_MAX - digit) / base) reading->overflow = 1;
    reading->number = reading->number * base + digit;
    reading->end = text + 1;
  }
}

static void read_number(struct reading *reading, const char *text, int base) {
  reading->number = 0;
  reading->end = text;
  reading->negative = reading->overflow = 0;
  if (base < 0 || base == 1 || base > 36) {
    errno = EINVAL;
    return;
  }
  while (isspace((unsigned char)*text)) text++;
  if (*text == '-' || *text == '+') reading->negative = *text++ == '-';
  text = after_prefix(text, &base);
  read_digits(reading, text, base);
}

long long strtoll(const char *restrict text, char **restrict end, int base) {
  struct reading reading;
  read_number(&reading, text, base);
  if (end) *end = (char *)reading.end;
  unsigned long long most = (unsigned long long)LLONG_MAX + reading.negative;
  if (reading.overflow || reading.number > most) {
    errno = ERANGE;
    return reading.negative ? LLONG_MIN : LLONG_MAX;
  }
  return (long long)(reading.negative ? -reading.number : reading.number);
}

unsigned long long strtoull(const char *restrict text, char **restrict end, int base) {
  struct reading reading;
  read_number(&reading, text, base);
  if (end) *end = (char *)reading.end;
  if (reading.overflow) {
    errno = ERANGE;
    return ULLONG_MAX;
  }
  return reading.negative ? -reading.number : reading.number;
}

long strtol(const char *restrict text, char **restrict end, int base) { return strtoll(text, end, base); }
unsigned long strtoul(const char *restrict text, char **restrict end, int base) { return strtoull(text, end, base); }
intmax_t strtoimax(const char *restrict text, char **restrict end, int base) { return strtoll(text, end, base); }
uintmax_t strtoumax(const char *restrict text, char **restrict end, int base) { return strtoull(text, end, base); }

// The names by which newer headers call them.
long __isoc23_strtol(const char *text, char **end, int base) { return strtoll(text, end, base); }
long long __isoc23_strtoll(const char *text, char **end, int base) { return strtoll(text, end, base); }
unsigned long __isoc23_strtoul(const char *text, char **end, int base) { return strtoull(text, end, base); }
unsigned long long __isoc23_strtoull(const char *text, char **end, int base) { return strtoull(text, end, base); }

int atoi(const char *text) { return (int)strtoll(text, NULL, 10); }
long atol(const char *text) { return strtoll(text, NULL, 10); }
long long atoll(const char *text) { return strtoll(text, NULL, 10); }

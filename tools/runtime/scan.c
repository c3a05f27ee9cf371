// Formatted reading of strings: all conversions of the C library in the C locale, except those of long double, which trap.
#include "float_read.h"
#include <limits.h>
#include <stdarg.h>
#include <stddef.h>
#include <stdint.h>
#include <stdlib.h>
#include <string.h>
#include <strings.h>
#include <wchar.h>

// This file does not include <stdio.h>, which may rename these functions.
enum { END_OF_TEXT = -1 };

int isspace(int character);

struct scan {
  const char *begin, *at;
  va_list arguments, all; // those that are left, and all for `%N$`
};

// The flags, the width and the size between the percent sign and the conversion.
struct directive {
  int position;  // the N of `%N$`, or 0
  int skipped;   // an asterisk: what is read is not stored
  int allocated; // an `m`: the characters go into new memory, whose address is stored
  int width;     // the greatest number of characters
  int bits;      // of the integer that is stored; characters of 64 bits are wide ones
};

static void skip_space(struct scan *scan) {
  while (isspace((unsigned char)*scan->at)) scan->at++;
}

static const char *read_number(int *number, const char *format) {
  for (*number = 0; *format >= '0' && *format <= '9'; format++)
    if (*number < INT_MAX / 10) *number = *number * 10 + (*format - '0');
  return format;
}

static const char *read_directive(struct directive *how, const char *format) {
  *how = (struct directive){.bits = 32};
  const char *end = read_number(&how->position, format);
  if (*end == '$')
    format = end + 1;
  else
    how->position = 0;
  for (; *format == '*' || *format == '\'' || *format == 'I'; format++) how->skipped |= *format == '*';
  format = read_number(&how->width, format);
  for (;; format++) {
    if (*format == 'h')
      how->bits /= 2;
    else if (*format && strchr("ljztq", *format))
      how->bits = 64;
    else if (*format == 'm')
      how->allocated = 1;
    else
      return format;
  }
}

// Where a value goes: the next argument, or the one at a position.
static void *target(struct scan *scan, const struct directive *how) {
  if (!how->position) return va_arg(scan->arguments, void *);
  va_list list;
  va_copy(list, scan->all);
  void *found = NULL;
  for (int i = 0; i < how->position; i++) found = va_arg(list, void *);
  va_end(list);
  return found;
}

static void store(struct scan *scan, const struct directive *how, uint64_t number) {
  if (!how->skipped) memcpy(target(scan, how), &number, how->bits / 8);
}

static unsigned digit_of(char c) {
  if (c >= '0' && c <= '9') return c - '0';
  if (c >= 'a' && c <= 'z') return c - 'a' + 10;
  if (c >= 'A' && c <= 'Z') return c - 'A' + 10;
  return UINT_MAX;
}

// The number of digits that were read. One that is too large is the largest, or the least, as strtol and strtoul have it.
static uint64_t number_of(uint64_t digits, int is_too_large, int negative, int is_signed) {
  if (!is_signed) return is_too_large ? UINT64_MAX : negative ? -digits : digits;
  uint64_t limit = (uint64_t)INT64_MAX + negative;
  if (is_too_large || digits > limit) digits = limit;
  return negative ? -digits : digits;
}

// Reads an integer, with the base of its prefix if the base is 0; returns whether there was one.
static int read_integer(struct scan *scan, const struct directive *how, unsigned base, int is_signed) {
  skip_space(scan);
  const char *at = scan->at, *end = at + strnlen(at, how->width ? how->width : INT_MAX);
  int negative = at < end && *at == '-';
  if (at < end && (*at == '-' || *at == '+')) at++;
  // A prefix without a digit after it is the number 0, and is read whole.
  int prefixed = (base == 0 || base == 16) && end - at > 1 && at[0] == '0' && (at[1] == 'x' || at[1] == 'X');
  if (prefixed) base = 16, at += 2;
  if (base == 0) base = at < end && *at == '0' ? 8 : 10;
  const char *digits = at;
  uint64_t number = 0;
  int is_too_large = 0;
  for (; at < end && digit_of(*at) < base; at++)
    is_too_large |= __builtin_mul_overflow(number, base, &number) || __builtin_add_overflow(number, digit_of(*at), &number);
  if (at == digits && !prefixed) return 0;
  scan->at = at;
  store(scan, how, number_of(number, is_too_large, negative, is_signed));
  return 1;
}

// Reads an address; that of a null pointer is `(nil)`, too.
static int read_address(struct scan *scan, const struct directive *how) {
  skip_space(scan);
  if ((how->width && how->width < 5) || strncasecmp(scan->at, "(nil)", 5)) return read_integer(scan, how, 16, 0);
  scan->at += 5;
  store(scan, how, 0);
  return 1;
}

#ifdef HIPPO_FLOATS
static int read_float(struct scan *scan, const struct directive *how) {
  struct number number;
  skip_space(scan);
  const char *after = hippo_read_float(scan->at, scan->at + strnlen(scan->at, how->width ? how->width : INT_MAX), true, &number);
  if (!after) return 0;
  scan->at = after;
  store(scan, how, how->bits == 64 ? to_64(number) : to_32(number));
  return 1;
}
#else
// A program without floating-point numbers reads none.
static int read_float(struct scan *scan, const struct directive *how) {
  (void)scan, (void)how;
  __builtin_trap();
}
#endif

// Stores this number of characters, and a zero after a string; returns whether there were any, and memory for them.
static int take(struct scan *scan, const struct directive *how, size_t count, int is_string) {
  if (count == 0) return 0;
  size_t step = how->bits == 64 ? sizeof(wchar_t) : 1;
  char *to = how->skipped ? NULL : target(scan, how);
  if (how->allocated && to) {
    char *memory = malloc((count + is_string) * step);
    memcpy(to, &memory, sizeof memory);
    if (!memory) return 0;
    to = memory;
  }
  if (to) {
    memset(to, 0, (count + is_string) * step);
    for (size_t i = 0; i < count; i++) to[i * step] = scan->at[i];
  }
  scan->at += count;
  return 1;
}

static int read_word(struct scan *scan, const struct directive *how) {
  skip_space(scan);
  size_t count = 0, limit = how->width ? (size_t)how->width : SIZE_MAX;
  while (count < limit && scan->at[count] && !isspace((unsigned char)scan->at[count])) count++;
  return take(scan, how, count, 1);
}

static int read_characters(struct scan *scan, const struct directive *how) {
  return take(scan, how, strnlen(scan->at, how->width ? (size_t)how->width : 1), 0);
}

// Whether a character is in a set, which is the text between two places with its ranges.
static int is_in(const char *from, const char *to, char c) {
  for (; from < to; from++) {
    if (to - from > 2 && from[1] == '-') {
      if (c >= from[0] && c <= from[2]) return 1;
      from += 2;
    } else if (*from == c) {
      return 1;
    }
  }
  return 0;
}

// Reads characters of a set, whose text begins after its bracket. Returns the format after the set, or a null pointer if it read none.
static const char *read_set(struct scan *scan, const struct directive *how, const char *format) {
  int excluded = *format == '^';
  const char *set = format + excluded, *end = strchr(*set ? set + 1 : set, ']');
  if (!end) return NULL;
  size_t count = 0, limit = how->width ? (size_t)how->width : SIZE_MAX;
  while (count < limit && scan->at[count] && is_in(set, end, scan->at[count]) != excluded) count++;
  return take(scan, how, count, 1) ? end + 1 : NULL;
}

// Reads one conversion. Returns the format after it, or a null pointer if the text does not fit.
static const char *read_conversion(struct scan *scan, const struct directive *how, const char *format) {
  int fits = 0;
  switch (*format) {
  case 'd': case 'u': fits = read_integer(scan, how, 10, *format == 'd'); break;
  case 'i': fits = read_integer(scan, how, 0, 1); break;
  case 'x': case 'X': fits = read_integer(scan, how, 16, 0); break;
  case 'p': fits = read_address(scan, how); break;
  case 'o': fits = read_integer(scan, how, 8, 0); break;
  case 'a': case 'A': case 'e': case 'E': case 'f': case 'F': case 'g': case 'G': fits = read_float(scan, how); break;
  case 'L': __builtin_trap();
  case 's': fits = read_word(scan, how); break;
  case 'c': fits = read_characters(scan, how); break;
  case '[': return read_set(scan, how, format + 1);
  case 'n': fits = 1; store(scan, how, scan->at - scan->begin); break;
  case '%': skip_space(scan); fits = *scan->at == '%'; scan->at += fits; break;
  }
  return fits ? format + 1 : NULL;
}

// Whether a conversion is one of those that the result counts.
static int is_counted(const struct directive *how, char conversion) {
  return !how->skipped && conversion != 'n' && conversion != '%';
}

int vsscanf(const char *restrict text, const char *restrict format, va_list arguments) {
  struct scan scan = {.begin = text, .at = text};
  struct directive how;
  int count = 0, converted = 0;
  va_copy(scan.arguments, arguments);
  va_copy(scan.all, arguments);
  while (format && *format) {
    if (isspace((unsigned char)*format)) {
      skip_space(&scan);
      format++;
    } else if (*format != '%') {
      format = *scan.at == *format ? format + 1 : NULL;
      scan.at += format != NULL;
    } else {
      const char *conversion = read_directive(&how, format + 1);
      if (*conversion == 'p') how.bits = 64;
      format = read_conversion(&scan, &how, conversion);
      converted |= format != NULL;
      count += format && is_counted(&how, *conversion);
    }
  }
  va_end(scan.all);
  va_end(scan.arguments);
  return !format && !converted && !*scan.at ? END_OF_TEXT : count;
}

int sscanf(const char *restrict text, const char *restrict format, ...) {
  va_list arguments;
  va_start(arguments, format);
  int count = vsscanf(text, format, arguments);
  va_end(arguments);
  return count;
}

// The names by which headers call them.
int __isoc99_vsscanf(const char *text, const char *format, va_list arguments) { return vsscanf(text, format, arguments); }
int __isoc23_vsscanf(const char *text, const char *format, va_list arguments) { return vsscanf(text, format, arguments); }

int __isoc99_sscanf(const char *text, const char *format, ...) {
  va_list arguments;
  va_start(arguments, format);
  int count = vsscanf(text, format, arguments);
  va_end(arguments);
  return count;
}

int __isoc23_sscanf(const char *text, const char *format, ...) {
  va_list arguments;
  va_start(arguments, format);
  int count = vsscanf(text, format, arguments);
  va_end(arguments);
  return count;
}

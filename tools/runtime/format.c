// Formatted text: all conversions of the C library in the C locale, except those of long double, which trap.
#include "float_text.h"
#include "format.h"
#include "hippo.h"
#include <errno.h>
#include <limits.h>
#include <stdint.h>
#include <stdio.h>
#include <string.h>
#include <wchar.h>

// The text so far. Bytes past the size are counted and not written. An error ends it.
struct text {
  char *to;
  size_t size, length;
  int numbers, error, number; // `number` is errno at the call
  va_list arguments, all;     // those that are left, and all for `%N$`
};

// The flags, the width, the precision and the size between the percent sign and the conversion.
struct directive {
  int position; // the N of `%N$`, or 0
  int left, plus, space, alternate, zero, grouped, other_digits;
  int width, precision; // a precision that is not given is -1
  int bits;             // of the argument
  int is_large;         // an `L`: of a floating-point number, a long double
};

static void put(struct text *text, char c) {
  if (text->length < text->size) text->to[text->length] = c;
  text->length++;
}

static void put_many(struct text *text, char c, int count) {
  for (; count > 0; count--) put(text, c);
}

static void put_bytes(struct text *text, const char *bytes, size_t count) {
  for (size_t i = 0; i < count; i++) put(text, bytes[i]);
}

static void put_padded(struct text *text, const struct directive *how, const char *bytes, size_t count) {
  int padding = how->width - (int)count;
  if (!how->left) put_many(text, ' ', padding);
  put_bytes(text, bytes, count);
  if (how->left) put_many(text, ' ', padding);
}

// The next argument, or the one at a position, which takes a word as each but the floating-point ones does.
static uint64_t argument(struct text *text, int position) {
  if (!position) return va_arg(text->arguments, uint64_t);
  va_list list;
  va_copy(list, text->all);
  uint64_t found = 0;
  for (int i = 0; i < position; i++) found = va_arg(list, uint64_t);
  va_end(list);
  return found;
}

static void *pointer(struct text *text, const struct directive *how) {
  return (void *)(uintptr_t)argument(text, how->position);
}

static void put_string(struct text *text, const struct directive *how, const char *bytes) {
  if (!bytes) bytes = how->precision < 0 || how->precision >= 6 ? "(null)" : "";
  put_padded(text, how, bytes, how->precision < 0 ? strlen(bytes) : strnlen(bytes, how->precision));
}

// Wide characters; the C locale has those of ASCII alone.
static void put_wide(struct text *text, const struct directive *how, const wchar_t *from, size_t count) {
  for (size_t i = 0; i < count; i++)
    if ((unsigned)from[i] > 127) {
      text->error = EILSEQ;
      return;
    }
  int padding = how->width - (int)count;
  if (!how->left) put_many(text, ' ', padding);
  for (size_t i = 0; i < count; i++) put(text, (char)from[i]);
  if (how->left) put_many(text, ' ', padding);
}

static void put_wide_string(struct text *text, const struct directive *how, const wchar_t *from) {
  if (!from) {
    put_string(text, how, NULL);
    return;
  }
  size_t count = 0;
  while ((how->precision < 0 || count < (size_t)how->precision) && from[count]) count++;
  put_wide(text, how, from, count);
}

// Writes the digits of a number before `end`, none for 0, and returns the first of them.
static char *digits(char *end, uint64_t number, unsigned base, const char *names) {
  for (; number; number /= base) *--end = names[number % base];
  return end;
}

static void put_number(struct text *text, const struct directive *how, const char *prefix, uint64_t number,
                       unsigned base, int upper) {
  char buffer[64], *end = buffer + sizeof buffer;
  char *begin = digits(end, number, base, upper ? "0123456789ABCDEF" : "0123456789abcdef");
  int count = (int)(end - begin), prefixed = (int)strlen(prefix);
  int least = how->precision < 0 ? 1 : how->precision;
  if (base == 8 && how->alternate && least <= count) least = count + 1;
  if (how->zero && !how->left && how->precision < 0 && least < how->width - prefixed) least = how->width - prefixed;
  int zeros = least > count ? least - count : 0, padding = how->width - prefixed - zeros - count;
  if (!how->left) put_many(text, ' ', padding);
  put_bytes(text, prefix, prefixed);
  put_many(text, '0', zeros);
  put_bytes(text, begin, count);
  if (how->left) put_many(text, ' ', padding);
}

static void put_signed(struct text *text, const struct directive *how) {
  int64_t number = (int64_t)argument(text, how->position);
  if (how->bits == 32) number = (int32_t)number;
  if (how->bits == 16) number = (int16_t)number;
  if (how->bits == 8) number = (int8_t)number;
  if (text->numbers) print_i64(number);
  const char *sign = number < 0 ? "-" : how->plus ? "+" : how->space ? " " : "";
  put_number(text, how, sign, number < 0 ? -(uint64_t)number : (uint64_t)number, 10, 0);
}

static void put_unsigned(struct text *text, const struct directive *how, char conversion) {
  uint64_t number = argument(text, how->position);
  if (how->bits < 64) number &= (UINT64_C(1) << how->bits) - 1;
  if (text->numbers) print_i64((long long)number);
  unsigned base = conversion == 'u' ? 10 : conversion == 'o' ? 8 : conversion == 'b' || conversion == 'B' ? 2 : 16;
  char prefix[3] = {'0', conversion, 0};
  int prefixed = how->alternate && number && (base == 2 || base == 16);
  put_number(text, how, prefixed ? prefix : "", number, base, conversion == 'X');
}

static void put_pointer(struct text *text, const struct directive *how) {
  uint64_t address = argument(text, how->position);
  if (address)
    put_number(text, how, "0x", address, 16, 0);
  else
    put_padded(text, how, "(nil)", 5);
}

#ifdef HIPPO_FLOATS
static void put_float(struct text *text, const struct directive *how, char conversion) {
  if (how->position || how->is_large) __builtin_trap();
  struct hippo_float_text number;
  hippo_float_text(&number, va_arg(text->arguments, double), conversion, how->precision, how->alternate);
  const char *sign = number.negative ? "-" : how->plus ? "+" : how->space ? " " : "";
  int padding = how->width - (int)(strlen(sign) + strlen(number.prefix)) - number.length;
  int zero = how->zero && !how->left && number.is_finite;
  if (!how->left && !zero) put_many(text, ' ', padding);
  put_bytes(text, sign, strlen(sign));
  put_bytes(text, number.prefix, strlen(number.prefix));
  if (zero) put_many(text, '0', padding);
  for (int i = 0; i < number.piece_count; i++) {
    const struct hippo_piece *piece = &number.pieces[i];
    if (piece->bytes)
      put_bytes(text, piece->bytes, piece->count);
    else
      put_many(text, '0', piece->count);
  }
  if (how->left) put_many(text, ' ', padding);
}
#else
// A program without floating-point numbers has none to write.
static void put_float(struct text *text, const struct directive *how, char conversion) {
  (void)text, (void)how, (void)conversion;
  __builtin_trap();
}
#endif

static void store_length(struct text *text, const struct directive *how) {
  memcpy(pointer(text, how), &text->length, how->bits / 8);
}

// What the C library writes for a conversion that it does not know: the directive without its size.
static void put_unknown(struct text *text, const struct directive *how, char conversion) {
  const struct directive plain = {.precision = -1};
  put(text, '%');
  if (how->alternate) put(text, '#');
  if (how->grouped) put(text, '\'');
  if (how->plus || how->space) put(text, how->plus ? '+' : ' ');
  if (how->left || how->zero) put(text, how->left ? '-' : '0');
  if (how->other_digits) put(text, 'I');
  if (how->width) put_number(text, &plain, "", how->width, 10, 0);
  if (how->precision >= 0) {
    put(text, '.');
    put_number(text, &plain, "", how->precision, 10, 0);
  }
  put(text, conversion);
}

static const char *read_flags(struct directive *how, const char *format) {
  for (;; format++) {
    switch (*format) {
    case '-': how->left = 1; break;
    case '+': how->plus = 1; break;
    case ' ': how->space = 1; break;
    case '#': how->alternate = 1; break;
    case '0': how->zero = 1; break;
    case '\'': how->grouped = 1; break;
    case 'I': how->other_digits = 1; break;
    default: return format;
    }
  }
}

static const char *read_digits(struct text *text, int *count, const char *format) {
  long long read = 0;
  for (; *format >= '0' && *format <= '9'; format++)
    if (read <= INT_MAX) read = read * 10 + (*format - '0');
  if (read > INT_MAX) text->error = EOVERFLOW;
  *count = (int)read;
  return format;
}

// The position of an argument, `N$`, or 0 if none is given.
static const char *read_position(struct text *text, int *position, const char *format) {
  const char *end = read_digits(text, position, format);
  if (*end == '$' && *position) return end + 1;
  *position = 0;
  return format;
}

// A width or a precision: an argument for an asterisk, or else digits.
static const char *read_count(struct text *text, int *count, const char *format) {
  if (*format != '*') return read_digits(text, count, format);
  int position;
  format = read_position(text, &position, format + 1);
  *count = (int)argument(text, position);
  return format;
}

static const char *read_length(struct directive *how, const char *format) {
  char first = *format;
  if (!first || !strchr("hljztqLZ", first)) return format;
  int is_twice = (first == 'h' || first == 'l') && format[1] == first;
  how->bits = first != 'h' ? 64 : is_twice ? 8 : 16;
  how->is_large = first == 'L';
  return format + 1 + is_twice;
}

static const char *read_directive(struct text *text, struct directive *how, const char *format) {
  *how = (struct directive){.precision = -1, .bits = 32};
  format = read_position(text, &how->position, format);
  format = read_flags(how, format);
  format = read_count(text, &how->width, format);
  if (how->width < 0) {
    how->left = 1;
    how->width = -how->width;
  }
  if (*format == '.') {
    format = read_count(text, &how->precision, format + 1);
    if (how->precision < 0) how->precision = -1;
  }
  return read_length(how, format);
}

static void put_character(struct text *text, const struct directive *how, int is_wide) {
  wchar_t wide = (wchar_t)argument(text, how->position);
  char character = (char)wide;
  if (is_wide)
    put_wide(text, how, &wide, 1);
  else
    put_padded(text, how, &character, 1);
}

// Writes one conversion; an error if the format ends before it. A floating-point number of a position traps.
static void put_conversion(struct text *text, const struct directive *how, char conversion) {
  int is_wide = how->bits == 64;
  switch (conversion) {
  case 'd': case 'i': put_signed(text, how); break;
  case 'u': case 'x': case 'X': case 'o': case 'b': case 'B': put_unsigned(text, how, conversion); break;
  case 's': case 'S':
    if (is_wide || conversion == 'S')
      put_wide_string(text, how, pointer(text, how));
    else
      put_string(text, how, pointer(text, how));
    break;
  case 'c': case 'C': put_character(text, how, is_wide || conversion == 'C'); break;
  case 'p': put_pointer(text, how); break;
  case 'n': store_length(text, how); break;
  case 'm': put_string(text, how, strerror(text->number)); break;
  case '%': put(text, '%'); break;
  case 'a': case 'A': case 'e': case 'E': case 'f': case 'F': case 'g': case 'G': put_float(text, how, conversion); break;
  case 0: text->error = EINVAL; break;
  default: put_unknown(text, how, conversion);
  }
}

static void put_format(struct text *text, const char *format) {
  struct directive how;
  while (*format && !text->error) {
    if (*format != '%') {
      put(text, *format++);
      continue;
    }
    format = read_directive(text, &how, format + 1);
    if (text->error) return;
    put_conversion(text, &how, *format++);
  }
}

int hippo_format(char *to, size_t size, int numbers, const char *format, va_list arguments) {
  struct text text = {.to = to, .size = size, .numbers = numbers, .number = errno};
  va_copy(text.arguments, arguments);
  va_copy(text.all, arguments);
  put_format(&text, format);
  va_end(text.all);
  va_end(text.arguments);
  if (size) to[text.length < size ? text.length : size - 1] = 0;
  if (!text.error && text.length > INT_MAX) text.error = EOVERFLOW;
  if (!text.error) return (int)text.length;
  errno = text.error;
  return -1;
}

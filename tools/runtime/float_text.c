// The text of a floating-point number: all its decimal digits, and then those that the precision keeps, to the nearest and to even.
#include "float_text.h"
#include "float_bits.h"

enum { WORDS = 90, IN_WORD = 9, WORD = 1000000000, FIVES = 13, FIVE_TO_13 = 1220703125, TWOS = 29 };

// An integer in words of nine decimal digits, the lowest first.
struct large {
  uint32_t words[WORDS];
  int count;
};

// A number: the digits are after a point that is moved by `point` to the right. Zero has no digits.
struct decimal {
  char *digits;
  int count, point;
};

static void multiply(struct large *large, uint32_t factor) {
  uint64_t carry = 0;
  for (int i = 0; i < large->count; i++) {
    carry += (uint64_t)large->words[i] * factor;
    large->words[i] = carry % WORD;
    carry /= WORD;
  }
  for (; carry; carry /= WORD) large->words[large->count++] = carry % WORD;
}

static void write_digits(struct decimal *to, const struct large *large) {
  to->count = 0;
  for (int i = large->count - 1; i >= 0; i--) {
    char word[IN_WORD];
    uint32_t left = large->words[i];
    for (int place = IN_WORD - 1; place >= 0; place--, left /= 10) word[place] = (char)('0' + left % 10);
    for (int place = 0; place < IN_WORD; place++)
      if (to->count || word[place] != '0') to->digits[to->count++] = word[place];
  }
}

// All digits of mantissa * 2^exponent.
static void expand(struct decimal *to, uint64_t mantissa, int exponent) {
  struct large large = {.count = 0};
  for (; exponent < 0 && !(mantissa & 1); exponent++) mantissa >>= 1;
  for (; mantissa; mantissa /= WORD) large.words[large.count++] = mantissa % WORD;
  int fives = exponent < 0 ? -exponent : 0, twos = exponent > 0 ? exponent : 0;
  for (int left = twos; left; left -= left < TWOS ? left : TWOS) multiply(&large, 1u << (left < TWOS ? left : TWOS));
  for (int left = fives; left >= FIVES; left -= FIVES) multiply(&large, FIVE_TO_13);
  for (int left = fives % FIVES; left; left--) multiply(&large, 5);
  write_digits(to, &large);
  to->point = to->count - fives;
}

static bool rounds_up(const struct decimal *number, int kept) {
  if (number->digits[kept] != '5') return number->digits[kept] > '5';
  for (int i = kept + 1; i < number->count; i++)
    if (number->digits[i] != '0') return true;
  return kept && (number->digits[kept - 1] & 1);
}

// Keeps this number of digits; below 0, the number is less than a tenth of the last digit's unit.
static void round_to(struct decimal *number, int kept) {
  if (kept >= number->count) return;
  bool up = kept >= 0 && rounds_up(number, kept);
  number->count = kept < 0 ? 0 : kept;
  if (!up) return;
  while (kept && number->digits[kept - 1] == '9') number->digits[--kept] = '0';
  if (kept) {
    number->digits[kept - 1]++;
    return;
  }
  number->digits[0] = '1';
  number->point++;
  if (!number->count) number->count = 1;
}

static void add(struct hippo_float_text *text, const char *bytes, int count) {
  if (count <= 0) return;
  text->pieces[text->piece_count++] = (struct hippo_piece){bytes, count};
  text->length += count;
}

// Digits of the number from a place on, and zeros where it has none.
static void add_digits(struct hippo_float_text *text, const struct decimal *number, int from, int count) {
  int before = from < 0 ? from + count < 0 ? count : -from : 0, first = from < 0 ? 0 : from;
  int left = count - before, present = number->count - first < left ? number->count - first : left;
  if (present < 0) present = 0;
  add(text, 0, before);
  add(text, number->digits + first, present);
  add(text, 0, left - present);
}

static void add_exponent(struct hippo_float_text *text, char letter, int exponent, int least) {
  char *at = text->exponent + sizeof text->exponent, *end = at;
  int size = exponent < 0 ? -exponent : exponent;
  for (; size || end - at < least; size /= 10) *--at = (char)('0' + size % 10);
  *--at = exponent < 0 ? '-' : '+';
  *--at = letter;
  add(text, at, (int)(end - at));
}

static void add_fixed(struct hippo_float_text *text, const struct decimal *number, int precision, bool pointed) {
  if (number->count && number->point > 0)
    add_digits(text, number, 0, number->point);
  else
    add(text, "0", 1);
  if (precision > 0 || pointed) add(text, ".", 1);
  if (number->count)
    add_digits(text, number, number->point, precision);
  else
    add(text, 0, precision);
}

static void add_scientific(struct hippo_float_text *text, const struct decimal *number, int precision, bool pointed, char letter) {
  add_digits(text, number, 0, 1);
  if (precision > 0 || pointed) add(text, ".", 1);
  add_digits(text, number, 1, precision);
  add_exponent(text, letter, number->count ? number->point - 1 : 0, 2);
}

// %g: the form that the exponent chooses, without the zeros at the end of the digits unless they are asked for.
static void add_general(struct hippo_float_text *text, struct decimal *number, int precision, bool alternate, char letter) {
  if (precision == 0) precision = 1;
  round_to(number, precision);
  int exponent = number->count ? number->point - 1 : 0;
  bool is_fixed = exponent >= -4 && exponent < precision;
  int kept = is_fixed ? precision - 1 - exponent : precision - 1;
  if (!alternate) {
    while (number->count && number->digits[number->count - 1] == '0') number->count--;
    kept = number->count - (is_fixed ? number->point : 1);
    if (kept < 0) kept = 0;
  }
  if (is_fixed)
    add_fixed(text, number, kept, alternate);
  else
    add_scientific(text, number, kept, alternate, letter);
}

static void add_hexadecimal(struct hippo_float_text *text, f64 bits, int precision, bool pointed, bool upper) {
  const char *names = upper ? "0123456789ABCDEF" : "0123456789abcdef";
  int field = bits >> 52 & 2047;
  uint64_t digits = bits & (((uint64_t)1 << 52) - 1);
  int exponent = field ? field - BIAS_64 : digits ? 1 - BIAS_64 : 0;
  if (field) digits |= (uint64_t)1 << 52;
  if (precision >= 0 && precision < 13) {
    int lost = 52 - 4 * precision;
    uint64_t unit = (uint64_t)1 << lost, rest = digits & (unit - 1);
    digits -= rest;
    if (rest > unit / 2 || (rest == unit / 2 && digits & unit)) digits += unit;
  }
  int count = 0;
  text->digits[count++] = names[digits >> 52];
  for (int place = 48; place >= 0; place -= 4) text->digits[count++] = names[digits >> place & 15];
  if (precision < 0) {
    while (count > 1 && text->digits[count - 1] == '0') count--;
    precision = count - 1;
  }
  struct decimal number = {text->digits, count, 1};
  add_digits(text, &number, 0, 1);
  if (precision > 0 || pointed) add(text, ".", 1);
  add_digits(text, &number, 1, precision);
  text->prefix = upper ? "0X" : "0x";
  add_exponent(text, upper ? 'P' : 'p', exponent, 1);
}

static void add_decimal(struct hippo_float_text *text, struct decimal *number, char conversion, int precision, bool alternate) {
  char letter = conversion < 'a' ? 'E' : 'e';
  switch (conversion | 32) {
  case 'f':
    round_to(number, precision > HIPPO_DIGITS + 300 ? number->count : number->point + precision);
    add_fixed(text, number, precision, alternate);
    break;
  case 'e':
    if (precision < HIPPO_DIGITS) round_to(number, precision + 1);
    add_scientific(text, number, precision, alternate, letter);
    break;
  default: add_general(text, number, precision, alternate, letter);
  }
}

void hippo_float_text(struct hippo_float_text *text, double given, char conversion, int precision, bool alternate) {
  f64 bits = bits_of(given);
  bool upper = conversion < 'a';
  uint64_t field = bits >> 52 & 2047, fraction = bits & (((uint64_t)1 << 52) - 1);
  text->negative = bits >> 63;
  text->is_finite = field != 2047;
  text->prefix = "";
  text->piece_count = text->length = 0;
  if (!text->is_finite) {
    add(text, fraction ? upper ? "NAN" : "nan" : upper ? "INF" : "inf", 3);
  } else if ((conversion | 32) == 'a') {
    add_hexadecimal(text, bits, precision, alternate, upper);
  } else {
    struct decimal number = {text->digits, 0, 0};
    expand(&number, field ? fraction | (uint64_t)1 << 52 : fraction, (int)(field ? field : 1) - BIAS_64 - 52);
    add_decimal(text, &number, conversion, precision < 0 ? 6 : precision, alternate);
  }
}

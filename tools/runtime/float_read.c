// Floating-point numbers that are read from texts: all digits count, and the result is rounded once, by the format that it is for.
#include "float_read.h"

// Digits beyond these only decide whether a number is above another one of so many digits. No number between two neighbours has more.
enum { DIGITS = 800, WORDS = 128, FIVES = 13, FIVE_TO_13 = 1220703125, LARGEST = 400 };

// An integer in words of 32 bits, the lowest first.
struct large {
  uint32_t words[WORDS];
  int count;
};

// A text that is read: the digits so far as an integer, the power of the base for the last of them, and whether digits are lost.
struct reading {
  const char *at, *end;
  int base, digit_count, scale;
  bool is_scanned, has_digits, is_pointed, is_inexact;
  struct large digits;
};

static void multiply(struct large *large, uint32_t factor, uint32_t more) {
  uint64_t carry = more;
  for (int i = 0; i < large->count; i++) {
    carry += (uint64_t)large->words[i] * factor;
    large->words[i] = (uint32_t)carry;
    carry >>= 32;
  }
  if (carry) large->words[large->count++] = (uint32_t)carry;
}

// Divides, and returns the rest.
static uint32_t divide(struct large *large, uint32_t divisor) {
  uint64_t rest = 0;
  for (int i = large->count - 1; i >= 0; i--) {
    rest = rest << 32 | large->words[i];
    large->words[i] = (uint32_t)(rest / divisor);
    rest %= divisor;
  }
  while (large->count && !large->words[large->count - 1]) large->count--;
  return (uint32_t)rest;
}

static void raise(struct large *large, int words) {
  memmove(large->words + words, large->words, large->count * sizeof *large->words);
  memset(large->words, 0, words * sizeof *large->words);
  large->count += words;
}

// The number large * 2^exponent, and more if it is inexact.
static struct number number_of(const struct large *large, int exponent, bool inexact) {
  int top = large->count - 1;
  uint64_t digits = large->words[top], below = 0;
  if (top > 0) digits = digits << 32 | large->words[top - 1];
  struct number found = normalized(false, exponent + 32 * (top > 0 ? top - 1 : 0), digits);
  if (top > 1) {
    int moved = exponent + 32 * (top - 1) - found.exponent;
    below = (uint64_t)large->words[top - 2] << 32 | (top > 2 ? large->words[top - 3] : 0);
    if (moved) found.digits |= below >> (64 - moved);
    inexact |= below << moved != 0;
  }
  for (int i = top - 4; i >= 0 && !inexact; i--) inexact = large->words[i] != 0;
  found.digits |= inexact;
  return found;
}

static int digit_of(char c) {
  if (c >= '0' && c <= '9') return c - '0';
  if ((c | 32) >= 'a' && (c | 32) <= 'z') return (c | 32) - 'a' + 10;
  return 99;
}

static void read_digits(struct reading *reading) {
  for (; reading->at < reading->end; reading->at++) {
    int digit = digit_of(*reading->at);
    if (*reading->at == '.' && !reading->is_pointed) {
      reading->is_pointed = true;
      continue;
    }
    if (digit >= reading->base) break;
    reading->has_digits = true;
    if (reading->digit_count < DIGITS) {
      if (digit || reading->digit_count) multiply(&reading->digits, reading->base, digit), reading->digit_count++;
      reading->scale -= reading->is_pointed;
    } else {
      reading->is_inexact |= digit != 0;
      reading->scale += !reading->is_pointed;
    }
  }
}

// The exponent after its letter. Where digits are missing, strtod takes nothing of it, and scanf the letter and the sign.
static int read_exponent(struct reading *reading, char letter) {
  const char *at = reading->at;
  if (at >= reading->end || (*at | 32) != letter) return 0;
  bool negative = ++at < reading->end && *at == '-';
  if (at < reading->end && (*at == '-' || *at == '+')) at++;
  bool is_missing = at >= reading->end || digit_of(*at) > 9;
  int exponent = 0;
  for (; at < reading->end && digit_of(*at) <= 9; at++)
    if (exponent < 100000) exponent = exponent * 10 + digit_of(*at);
  if (!is_missing || reading->is_scanned) reading->at = at;
  return negative ? -exponent : exponent;
}

// digits * 10^scale. Where the scale is negative, the digits are raised so far that 64 digits of the quotient by the power of five stay.
static struct number decimal(struct reading *reading) {
  struct large *digits = &reading->digits;
  int scale = reading->scale, exponent = scale;
  if (!digits->count) return zero(false);
  int size = reading->digit_count + scale;
  if (size < -LARGEST || size > LARGEST) return (struct number){FINITE, false, 10 * size, highest_bit};
  if (scale < 0) {
    int words = 3 + (-scale * 2322 / 1000 + 31) / 32 - digits->count;
    if (words > 0) raise(digits, words), exponent -= 32 * words;
    for (; scale <= -FIVES; scale += FIVES) reading->is_inexact |= divide(digits, FIVE_TO_13) != 0;
    for (; scale < 0; scale++) reading->is_inexact |= divide(digits, 5) != 0;
  }
  for (; scale >= FIVES; scale -= FIVES) multiply(digits, FIVE_TO_13, 0);
  for (; scale > 0; scale--) multiply(digits, 5, 0);
  return number_of(digits, exponent, reading->is_inexact);
}

static bool starts_with(const char *text, const char *end, const char *word) {
  for (; *word; word++, text++)
    if (text >= end || (*text | 32) != *word) return false;
  return true;
}

// Infinity, or what is no number; null if the text is another one.
static const char *read_word(const struct reading *reading, struct number *number) {
  const char *text = reading->at, *end = reading->end, *at = text + 3;
  if (starts_with(text, end, "inf")) {
    *number = (struct number){INFINITE, number->negative, 0, 0};
    if (starts_with(text, end, "infinity")) return text + 8;
    return reading->is_scanned && starts_with(at, end, "i") ? 0 : at;
  }
  if (!starts_with(text, end, "nan")) return 0;
  *number = (struct number){NO_NUMBER, number->negative, 0, 0};
  if (reading->is_scanned || at >= end || *at != '(') return at;
  for (at++; at < end && (digit_of(*at) < 36 || *at == '_');) at++;
  return at < end && *at == ')' ? at + 1 : text + 3;
}

// Whether hexadecimal digits follow a prefix. Scanf decides by the prefix alone.
static bool is_hexadecimal(const struct reading *reading) {
  const char *at = reading->at;
  long left = reading->end - at;
  if (left < (reading->is_scanned && !*reading->end ? 2 : 3) || *at != '0' || (at[1] | 32) != 'x') return false;
  return reading->is_scanned || digit_of(at[2]) < 16 || (at[2] == '.' && left > 3 && digit_of(at[3]) < 16);
}

const char *hippo_read_float(const char *text, const char *end, bool scanned, struct number *number) {
  struct reading reading = {.at = text, .end = end, .base = 10, .is_scanned = scanned};
  bool negative = text < end && *text == '-';
  if (text < end && (*text == '-' || *text == '+')) reading.at++;
  number->negative = negative;
  const char *after = read_word(&reading, number);
  if (after) return after;
  bool hexadecimal = is_hexadecimal(&reading);
  if (hexadecimal) reading.at += 2, reading.base = 16;
  read_digits(&reading);
  if (!reading.has_digits && !(hexadecimal && reading.is_pointed)) return 0;
  if (hexadecimal) {
    int exponent = 4 * reading.scale + read_exponent(&reading, 'p');
    *number = reading.digits.count ? number_of(&reading.digits, exponent, reading.is_inexact) : zero(false);
  } else {
    reading.scale += read_exponent(&reading, 'e');
    *number = decimal(&reading);
  }
  number->negative = negative;
  return reading.at;
}

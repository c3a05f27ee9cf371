// Floating-point numbers of IEEE 754 by their bits, for the functions of the runtime that compute with them in integers.
#ifndef HIPPO_FLOAT_BITS_H
#define HIPPO_FLOAT_BITS_H

#include <stdbool.h>
#include <stdint.h>
#include <string.h>

typedef uint64_t f64; // the bits of a double
typedef uint32_t f32; // the bits of a float

#define INLINE static inline __attribute__((always_inline))

// The digits of each format, with the leading one that the bits do not have, and the bias of its exponent.
enum { DIGITS_64 = 53, BIAS_64 = 1023, DIGITS_32 = 24, BIAS_32 = 127 };

static const uint64_t highest_bit = (uint64_t)1 << 63;

enum kind { ZERO, FINITE, INFINITE, NO_NUMBER };

// A finite number is digits * 2^exponent, with the highest bit of `digits` set. The lowest bit may stand for all digits below it that are
// lost. Of no number, `digits` are the digits below the highest one.
struct number {
  enum kind kind;
  bool negative;
  int exponent;
  uint64_t digits;
};

// The result of an operation that has none, as x86-64 gives it.
INLINE struct number invalid(void) { return (struct number){NO_NUMBER, true, 0, 0}; }

INLINE struct number zero(bool negative) { return (struct number){ZERO, negative, 0, 0}; }

// Shifts down. The lowest bit of the result also says whether a bit was lost.
INLINE uint64_t shifted_down(uint64_t digits, int count) {
  if (count <= 0) return digits;
  if (count > 63) return digits != 0;
  return digits >> count | (digits << (64 - count) != 0);
}

// A finite number of digits that are not 0, the highest of which may be anywhere.
INLINE struct number normalized(bool negative, int exponent, uint64_t digits) {
  for (int step = 32; step; step /= 2) {
    if (digits >> (64 - step)) continue;
    digits <<= step;
    exponent -= step;
  }
  return (struct number){FINITE, negative, exponent, digits};
}

INLINE struct number unpacked(uint64_t bits, int digits, int bias) {
  uint64_t fraction = bits << (64 - digits) & ~highest_bit;
  int field = (int)(bits >> (digits - 1)) & (2 * bias + 1);
  bool negative = bits >> (digits == DIGITS_64 ? 63 : 31) & 1;
  if (field == 2 * bias + 1) return (struct number){fraction ? NO_NUMBER : INFINITE, negative, 0, fraction};
  if (field) return (struct number){FINITE, negative, field - bias - 63, fraction | highest_bit};
  return fraction ? normalized(negative, 1 - bias - 63, fraction) : zero(negative);
}

// The bits of a finite number without its sign: rounded to the nearest, and to even between two.
INLINE uint64_t rounded(struct number a, int digits, int bias) {
  int field = a.exponent + 63 + bias, rest = 64 - digits;
  if (field > 2 * bias) return (uint64_t)(2 * bias + 1) << (digits - 1);
  if (field <= 0) a.digits = shifted_down(a.digits, 1 - field);
  uint64_t half = (uint64_t)1 << (rest - 1), kept = a.digits >> rest, lost = a.digits & (2 * half - 1);
  kept += lost > half || (lost == half && (kept & 1));
  return field <= 0 ? kept : ((uint64_t)(field - 1) << (digits - 1)) + kept;
}

INLINE uint64_t packed(struct number a, int digits, int bias) {
  uint64_t sign = (uint64_t)a.negative << (digits == DIGITS_64 ? 63 : 31), top = (uint64_t)(2 * bias + 1) << (digits - 1);
  switch (a.kind) {
  case ZERO: return sign;
  case FINITE: return sign | rounded(a, digits, bias);
  case INFINITE: return sign | top;
  default: return sign | top | (uint64_t)1 << (digits - 2) | a.digits >> (64 - digits);
  }
}

INLINE struct number from_64(f64 bits) { return unpacked(bits, DIGITS_64, BIAS_64); }
INLINE struct number from_32(f32 bits) { return unpacked(bits, DIGITS_32, BIAS_32); }
INLINE f64 to_64(struct number a) { return packed(a, DIGITS_64, BIAS_64); }
INLINE f32 to_32(struct number a) { return (f32)packed(a, DIGITS_32, BIAS_32); }

INLINE f64 bits_of(double number) {
  f64 bits;
  memcpy(&bits, &number, sizeof bits);
  return bits;
}

INLINE double double_of(f64 bits) {
  double number;
  memcpy(&number, &bits, sizeof number);
  return number;
}

INLINE f32 bits_of_float(float number) {
  f32 bits;
  memcpy(&bits, &number, sizeof bits);
  return bits;
}

INLINE float float_of(f32 bits) {
  float number;
  memcpy(&number, &bits, sizeof number);
  return number;
}

#endif

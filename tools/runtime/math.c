// The functions of <math.h> for double whose results are exact or rounded once, in integers. Logarithms, powers and the like are missing:
// their results depend on the library.
#include "floats.h"
#include <errno.h>
#include <limits.h>
#include <math.h>

static bool is_no_number(struct number a) { return a.kind == NO_NUMBER; }

double fabs(double a) { return double_of(bits_of(a) & ~highest_bit); }
double copysign(double a, double b) { return double_of((bits_of(a) & ~highest_bit) | (bits_of(b) & highest_bit)); }
double floor(double a) { return double_of(hippo_f64_floor(bits_of(a))); }
double ceil(double a) { return double_of(hippo_f64_ceil(bits_of(a))); }
double trunc(double a) { return double_of(hippo_f64_trunc(bits_of(a))); }
double round(double a) { return double_of(hippo_f64_round(bits_of(a))); }
double roundeven(double a) { return double_of(hippo_f64_rint(bits_of(a))); }
double rint(double a) { return double_of(hippo_f64_rint(bits_of(a))); }
double nearbyint(double a) { return double_of(hippo_f64_rint(bits_of(a))); }
long lround(double a) { return (long)hippo_f64_lround(bits_of(a)); }
long long llround(double a) { return (long long)hippo_f64_lround(bits_of(a)); }
long lrint(double a) { return (long)hippo_f64_lrint(bits_of(a)); }
long long llrint(double a) { return (long long)hippo_f64_lrint(bits_of(a)); }
double fma(double a, double b, double c) { return double_of(hippo_f64_fma(bits_of(a), bits_of(b), bits_of(c))); }

// The library gives the second one of two equal zeros, and LLVM's intrinsic the first one.
double fmin(double a, double b) { return double_of(hippo_f64_minnum(bits_of(b), bits_of(a))); }
double fmax(double a, double b) { return double_of(hippo_f64_maxnum(bits_of(b), bits_of(a))); }

double sqrt(double a) {
  struct number given = from_64(bits_of(a));
  if (given.negative && given.kind != ZERO && !is_no_number(given)) errno = EDOM;
  return double_of(hippo_f64_sqrt(bits_of(a)));
}

static void note_no_rest(double a, double b) {
  struct number one = from_64(bits_of(a)), two = from_64(bits_of(b));
  if (!is_no_number(one) && !is_no_number(two) && (one.kind == INFINITE || two.kind == ZERO)) errno = EDOM;
}

double fmod(double a, double b) {
  note_no_rest(a, b);
  return double_of(hippo_f64_frem(bits_of(a), bits_of(b)));
}

double remquo(double a, double b, int *quotient) {
  uint64_t digits;
  struct number one = from_64(bits_of(a)), two = from_64(bits_of(b));
  struct number rest = hippo_nearest_rest(one, two, &digits);
  *quotient = (int)(digits & 7) * (one.negative == two.negative ? 1 : -1);
  return double_of(to_64(rest));
}

double remainder(double a, double b) {
  int quotient;
  note_no_rest(a, b);
  return remquo(a, b, &quotient);
}

double drem(double a, double b) { return remainder(a, b); }

double fdim(double a, double b) {
  struct number rest = from_64(hippo_f64_fsub(bits_of(a), bits_of(b)));
  bool is_above = rest.kind != ZERO && !rest.negative;
  return is_no_number(rest) && !is_no_number(from_64(bits_of(a))) && !is_no_number(from_64(bits_of(b))) ? 0
         : is_above || is_no_number(rest) ? double_of(to_64(rest)) : 0;
}

double scalbln(double a, long exponent) {
  struct number given = from_64(bits_of(a));
  if (given.kind != FINITE) return double_of(to_64(given));
  given.exponent += exponent > 5000 ? 5000 : exponent < -5000 ? -5000 : (int)exponent;
  f64 bits = to_64(given);
  struct number found = from_64(bits);
  if (found.kind != FINITE) errno = ERANGE;
  return double_of(bits);
}

double scalbn(double a, int exponent) { return scalbln(a, exponent); }
double ldexp(double a, int exponent) { return scalbln(a, exponent); }

double frexp(double a, int *exponent) {
  struct number given = from_64(bits_of(a));
  *exponent = 0;
  if (given.kind != FINITE) return double_of(to_64(given));
  *exponent = given.exponent + 64;
  given.exponent = -64;
  return double_of(to_64(given));
}

double modf(double a, double *whole) {
  f64 bits = bits_of(a), cut = hippo_f64_trunc(bits);
  *whole = double_of(cut);
  struct number given = from_64(bits), rest = from_64(given.kind == INFINITE ? 0 : hippo_f64_fsub(bits, cut));
  if (rest.kind == ZERO) rest.negative = given.negative;
  return double_of(to_64(rest));
}

int ilogb(double a) {
  struct number given = from_64(bits_of(a));
  if (given.kind == FINITE) return given.exponent + 63;
  errno = EDOM;
  return given.kind == INFINITE ? INT_MAX : INT_MIN;
}

double logb(double a) {
  struct number given = from_64(bits_of(a));
  if (given.kind == INFINITE || is_no_number(given)) given.negative &= is_no_number(given);
  if (given.kind == ZERO) {
    errno = ERANGE;
    given = (struct number){INFINITE, true, 0, 0};
  }
  if (given.kind != FINITE) return double_of(to_64(given));
  int exponent = given.exponent + 63;
  return double_of(to_64(exponent ? normalized(exponent < 0, 0, exponent < 0 ? -(uint64_t)exponent : (uint64_t)exponent) : zero(false)));
}

double nextafter(double a, double b) {
  f64 from = bits_of(a), to = bits_of(b);
  struct number one = from_64(from), two = from_64(to);
  if (is_no_number(one) || is_no_number(two)) return double_of(to_64(is_no_number(one) ? one : two));
  if (from == to || (one.kind == ZERO && two.kind == ZERO)) return b;
  if (one.kind == ZERO) return double_of((to & highest_bit) | 1);
  bool grows = two.negative != one.negative ? false : (to & ~highest_bit) > (from & ~highest_bit);
  f64 next = grows ? from + 1 : from - 1;
  if (from_64(next).kind == INFINITE) errno = ERANGE;
  return double_of(next);
}

double nan(const char *text) { return (void)text, double_of((f64)4095 << 51 & ~highest_bit); }

// What the macros of older headers call.
int __isnan(double a) { return is_no_number(from_64(bits_of(a))); }
int __finite(double a) { return (bits_of(a) >> 52 & 2047) != 2047; }
int __signbit(double a) { return (int)(bits_of(a) >> 63); }
int __isinf(double a) { return from_64(bits_of(a)).kind == INFINITE ? bits_of(a) >> 63 ? -1 : 1 : 0; }

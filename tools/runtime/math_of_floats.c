// The functions of <math.h> for float: by those for double where these are exact.
#include "floats.h"
#include <errno.h>
#include <math.h>

static double wide(float a) { return double_of(hippo_f32_fpext(bits_of_float(a))); }
static float narrow(double a) { return float_of(hippo_f64_fptrunc(bits_of(a))); }

static const f32 sign_bit = (f32)1 << 31;

float fabsf(float a) { return float_of(bits_of_float(a) & ~sign_bit); }
float copysignf(float a, float b) { return float_of((bits_of_float(a) & ~sign_bit) | (bits_of_float(b) & sign_bit)); }
float floorf(float a) { return narrow(floor(wide(a))); }
float ceilf(float a) { return narrow(ceil(wide(a))); }
float truncf(float a) { return narrow(trunc(wide(a))); }
float roundf(float a) { return narrow(round(wide(a))); }
float roundevenf(float a) { return narrow(rint(wide(a))); }
float rintf(float a) { return narrow(rint(wide(a))); }
float nearbyintf(float a) { return narrow(rint(wide(a))); }
long lroundf(float a) { return lround(wide(a)); }
long long llroundf(float a) { return lround(wide(a)); }
long lrintf(float a) { return lrint(wide(a)); }
long long llrintf(float a) { return lrint(wide(a)); }
float sqrtf(float a) { return narrow(sqrt(wide(a))); }
float fmodf(float a, float b) { return narrow(fmod(wide(a), wide(b))); }
float remainderf(float a, float b) { return narrow(remainder(wide(a), wide(b))); }
float dremf(float a, float b) { return remainderf(a, b); }
float remquof(float a, float b, int *quotient) { return narrow(remquo(wide(a), wide(b), quotient)); }
float fdimf(float a, float b) { return narrow(fdim(wide(a), wide(b))); }
float fmaf(float a, float b, float c) { return float_of(hippo_f32_fma(bits_of_float(a), bits_of_float(b), bits_of_float(c))); }
float fminf(float a, float b) { return narrow(fmin(wide(a), wide(b))); }
float fmaxf(float a, float b) { return narrow(fmax(wide(a), wide(b))); }
float frexpf(float a, int *exponent) { return narrow(frexp(wide(a), exponent)); }
int ilogbf(float a) { return ilogb(wide(a)); }
float logbf(float a) { return narrow(logb(wide(a))); }

float scalblnf(float a, long exponent) {
  float found = narrow(scalbln(wide(a), exponent));
  struct number given = from_32(bits_of_float(a)), result = from_32(bits_of_float(found));
  if (given.kind == FINITE && result.kind != FINITE) errno = ERANGE;
  return found;
}

float scalbnf(float a, int exponent) { return scalblnf(a, exponent); }
float ldexpf(float a, int exponent) { return scalblnf(a, exponent); }

float modff(float a, float *whole) {
  double cut;
  float rest = narrow(modf(wide(a), &cut));
  *whole = narrow(cut);
  return rest;
}

float nextafterf(float a, float b) {
  f32 from = bits_of_float(a), to = bits_of_float(b);
  struct number one = from_32(from), two = from_32(to);
  if (one.kind == NO_NUMBER || two.kind == NO_NUMBER) return float_of(to_32(one.kind == NO_NUMBER ? one : two));
  if (from == to || (one.kind == ZERO && two.kind == ZERO)) return b;
  if (one.kind == ZERO) return float_of((to & sign_bit) | 1);
  bool grows = two.negative != one.negative ? false : (to & ~sign_bit) > (from & ~sign_bit);
  f32 next = grows ? from + 1 : from - 1;
  if (from_32(next).kind == INFINITE) errno = ERANGE;
  return float_of(next);
}

float nanf(const char *text) { return (void)text, float_of((f32)511 << 22 & ~sign_bit); }
int __isnanf(float a) { return from_32(bits_of_float(a)).kind == NO_NUMBER; }
int __finitef(float a) { return (bits_of_float(a) >> 23 & 255) != 255; }
int __signbitf(float a) { return (int)(bits_of_float(a) >> 31); }
int __isinff(float a) { return from_32(bits_of_float(a)).kind == INFINITE ? bits_of_float(a) >> 31 ? -1 : 1 : 0; }

#include "check.h"
#include <errno.h>
#include <float.h>
#include <math.h>
#include <stdarg.h>
#include <stdio.h>
#include <stdlib.h>
#include <string.h>

static const double DOUBLES[] = {0.0, -0.0, 1.0, -1.0, 0.5, -0.5, 1.5, 2.5, -2.5, 0.1, 3.0e9, -7.25, 1e300, -1e-300, 5e-324,
                                 -2.2250738585072014e-308, 4503599627370497.5, 9007199254740993.0, 123456789.987654321, 1e22, INFINITY, -INFINITY};
enum { COUNT = sizeof DOUBLES / sizeof *DOUBLES };

static void note_double(double number) {
  long long bits;
  memcpy(&bits, &number, sizeof bits);
  note(isnan(number) ? 1 : bits);
}

static void note_float(float number) {
  int bits;
  memcpy(&bits, &number, sizeof bits);
  note(isnan(number) ? 1 : bits);
}

static void arithmetic(double a, double b) {
  note_double(a + b), note_double(a - b), note_double(a * b), note_double(a / b), note_double(-a), note_double(fma(a, b, a));
  note_double(fmod(a, b)), note_double(remainder(a, b)), note_double(fmin(a, b)), note_double(fmax(a, b)), note_double(fdim(a, b));
  note_double(copysign(a, b)), note_double(nextafter(a, b));
  note(a < b), note(a <= b), note(a == b), note(a != b), note(a > b), note(a >= b), note(isunordered(a, b)), note(islessgreater(a, b));
  float x = (float)a, y = (float)b;
  note_float(x + y), note_float(x - y), note_float(x * y), note_float(x / y), note_float(-x), note_float(fmaf(x, y, x));
  note_float(fmodf(x, y));
  note_float(fminf(x, y)), note_float(fmaxf(x, y)), note_float(fdimf(x, y)), note_float(nextafterf(x, y)), note_float(copysignf(x, y));
  note(x < y), note(x == y), note(x >= y);
  int quotient = 0;
  note_double(remquo(a, b, &quotient));
  note(isfinite(a) && isfinite(b) && b != 0 ? quotient & 7 : 0);
}

static void functions(double a) {
  int exponent = 0;
  double whole = 0;
  float whole_float = 0, x = (float)a;
  note_double(floor(a)), note_double(ceil(a)), note_double(trunc(a)), note_double(round(a)), note_double(rint(a));
  note_double(nearbyint(a));
  note_double(sqrt(a)), note_double(fabs(a)), note_double(logb(a)), note_double(modf(a, &whole)), note_double(whole);
  note_float(floorf(x)), note_float(ceilf(x)), note_float(truncf(x)), note_float(roundf(x)), note_float(rintf(x)), note_float(sqrtf(x));
  note_float(fabsf(x)), note_float(logbf(x)), note_float(modff(x, &whole_float)), note_float(whole_float);
  if (isfinite(a)) note_double(frexp(a, &exponent)), note(exponent), note_float(frexpf(x, &exponent)), note(exponent);
  note(ilogb(a)), note(lround(a)), note(lrint(a)), note(llroundf(x)), note(llrintf(x));
  for (exponent = -1200; exponent <= 1200; exponent += 150) note_double(ldexp(a, exponent)), note_float(scalbnf(x, exponent / 8));
  note(isnan(a)), note(isinf(a)), note(isfinite(a)), note(isnormal(a)), note(signbit(a) != 0), note(fpclassify(a)), note(fpclassify(x));
}

static void conversions(double a) {
  float x = (float)a;
  if (a > -2147483649.0 && a < 2147483648.0) note((int)a), note((int)x);
  if (a > -9e18 && a < 9e18) note((long long)a), note((long long)x);
  if (a >= 0 && a < 1.8e19) note((long long)(unsigned long long)a), note((long long)(unsigned long long)x);
  if (a >= 0 && a < 4294967296.0) note((unsigned)a);
  if (a > -32769 && a < 32768) note((short)a), note((signed char)(a / 300));
  note(a != 0), note(!x), note_double((double)x);
}

static void from_integers(void) {
  for (int i = 0; i < 200; i++) {
    long long number = (long long)draw(1u << 31) << draw(33);
    if (i % 2) number = -number;
    note_double((double)number), note_float((float)number), note_double((double)(unsigned long long)number);
    note_float((float)(unsigned long long)number), note_double((int)number), note_float((short)number), note_double((unsigned char)number);
    note_float((unsigned)number);
  }
}

static double sum_of(int count, ...) {
  va_list list, again;
  va_start(list, count);
  va_copy(again, list);
  double found = 0;
  for (int i = 0; i < count; i++) found = found * 3 + va_arg(list, double);
  for (int i = 0; i < count; i++) found = found * 5 + va_arg(again, double);
  va_end(list);
  va_end(again);
  return found;
}

struct mixed { double a; long long b; };
struct pair { float a, b; };

// Seven parameters in registers for floating-point numbers: the eighth of these registers passes one more.
static double spread(double a, float b, double c, double d, int n, double e, double f, double g, ...) {
  va_list list;
  va_start(list, g);
  double found = a + b * 2 + c * 3 + d * 4 + e * 5 + f * 6 + g * 7;
  for (int i = 0; i < n; i++) {
    found = found * 2 + va_arg(list, double);
    found = found * 2 + (double)va_arg(list, int);
    struct mixed mixed = va_arg(list, struct mixed);
    found += mixed.a * 3 + (double)mixed.b;
    struct pair pair = va_arg(list, struct pair);
    found += pair.a * 5 + pair.b * 7;
  }
  va_end(list);
  return found;
}

static void format(const char *how, ...) {
  static char to[700];
  va_list arguments;
  va_start(arguments, how);
  note(vsnprintf(to, sizeof to, how, arguments));
  note_bytes(to, strlen(to));
  va_end(arguments);
}

static void texts(double a) {
  format("%f|%e|%g|%a|%F|%E|%G|%A", a, a, a, a, a, a, a, a);
  format("%.0f|%.0e|%.0g|%.0a|%#.0f|%#.0e|%#.0g|%#.0a", a, a, a, a, a, a, a, a);
  format("%.3f|%.17e|%.17g|%.5a|%30.10f|%-30.10e|%030g|%+a", a, a, a, a, a, a, a, a);
  format("%d %.2f %s % 8.1f %ld %*.*f", 5, a, "text", a, 7L, 12, 3, a);
}

static void readings(void) {
  static const char *const TEXTS[] = {"1.5", " -2.25e3 next", "0x1.8p4", "inf", "-nan", ".5", "1e", "", "x", "1e999", "1e-400", "4.9e-324",
                                      "179769313486231570000000000000000e277", "0.1", "123456789012345678901234567890", "3,4", "1e+", "12ex", "0x", "0x.", "0x1p",
                                      "infinit", "nan(12)", "+", "-."};
  for (unsigned i = 0; i < sizeof TEXTS / sizeof *TEXTS; i++) {
    char *end;
    double a = 1, b = 2;
    float x = 3;
    errno = 0;
    note_double(strtod(TEXTS[i], &end)), note(end - TEXTS[i]), note(errno), errno = 0;
    note_float(strtof(TEXTS[i], &end)), note(end - TEXTS[i]), note(errno), note_double(atof(TEXTS[i]));
    note(sscanf(TEXTS[i], "%lf", &a)), note_double(a);
    note(sscanf(TEXTS[i], "%3f%lg", &x, &b)), note_float(x), note_double(b);
  }
}

int main(void) {
  for (int i = 0; i < COUNT; i++) {
    for (int j = 0; j < COUNT; j++) arithmetic(DOUBLES[i], DOUBLES[j]);
    print_sum();
    functions(DOUBLES[i]), print_sum();
    conversions(DOUBLES[i]), print_sum();
    texts(DOUBLES[i]), print_sum();
  }
  from_integers(), print_sum();
  note_double(sum_of(3, 1.5, -2.0, 1e10)), note_double(sum_of(12, 1., 2., 3., 4., 5., 6., 7., 8., 9., 10., 11., 12.));
  struct mixed mixed = {4.5, -3};
  struct pair pair = {0.5f, 2.5f};
  note_double(spread(1, 2.5f, 3, 4, 3, 5, 6, 7.5, 8.25, 9, mixed, pair, 10.5, 11, mixed, pair, -1.0, 2, mixed, pair));
  print_sum();
  readings(), print_sum();
  return 0;
}

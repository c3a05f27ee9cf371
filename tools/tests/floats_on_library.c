// Compares the runtime's texts of floating-point numbers, and its reading of texts, with the system's C library: COUNT random numbers
// from SEED, each in many forms. It prints what differs.
#include "../runtime/float_read.h"
#include "../runtime/format.h"
#include <stdarg.h>
#include <stdio.h>
#include <stdlib.h>

static uint64_t state;
static long wrong;

static uint64_t draw(void) {
  state ^= state << 13;
  state ^= state >> 7;
  return state ^= state << 17;
}

static double number(void) {
  uint64_t bits = draw();
  switch (draw() % 8) {
  case 0: return double_of(bits);
  case 1: return double_of((bits & ~((uint64_t)2047 << 52)) | (980 + draw() % 90) << 52);
  case 2: return (double)((int64_t)(draw() % 2000001) - 1000000) / 1000;
  case 3: return (double)(int64_t)(draw() % 100000) / 8;
  case 4: return double_of(bits & ~((uint64_t)2047 << 52));
  case 5: return (double)draw();
  case 6: return (double)(draw() % 100);
  default: return double_of((bits & highest_bit) | (draw() % 4 ? (uint64_t)(bits & 2047) << 52 : (uint64_t)2047 << 52 | (bits & 1) << 51));
  }
}

static int ours(char *to, size_t size, const char *format, ...) {
  va_list arguments;
  va_start(arguments, format);
  int length = hippo_format(to, size, 0, format, arguments);
  va_end(arguments);
  return length;
}

static void differ(const char *what, const char *got, const char *wanted) {
  if (++wrong <= 20) printf("%s: '%s' where the library has '%s'\n", what, got, wanted);
}

static void write(double given) {
  static char got[4000], wanted[4000];
  char format[40];
  int at = snprintf(format, sizeof format, "%%%s%s%s%s%s", draw() % 4 ? "" : "-", draw() % 4 ? "" : "0", draw() % 4 ? "" : "+",
                    draw() % 4 ? "" : " ", draw() % 4 ? "" : "#");
  if (draw() % 3 == 0) at += snprintf(format + at, sizeof format - at, "%d", (int)(draw() % 40));
  if (draw() % 4) at += snprintf(format + at, sizeof format - at, ".%d", (int)(draw() % 12 ? draw() % 25 : draw() % 1200));
  snprintf(format + at, sizeof format - at, "%c|%%d", "fFeEgGaA"[draw() % 8]);
  int length = ours(got, sizeof got, format, given, 7), right = snprintf(wanted, sizeof wanted, format, given, 7);
  if (length != right || strcmp(got, wanted)) differ(format, got, wanted);
}

static void read(const char *text) {
  struct number found = zero(false);
  char *end, *end_32;
  double wanted = strtod(text, &end);
  float wanted_32 = strtof(text, &end_32);
  const char *after = hippo_read_float(text, text + strlen(text), false, &found);
  if (after ? after != end || after != end_32 || to_64(found) != bits_of(wanted) || to_32(found) != bits_of_float(wanted_32) : end != text)
    differ("reading", text, after ? after : "nothing");
}

static void read_of(double given) {
  char text[1300];
  int precision = draw() % 8 ? (int)(draw() % 25) : (int)(draw() % 800);
  snprintf(text, sizeof text, draw() % 2 ? "%.*e" : draw() % 2 ? "%.*a" : "%.*f", precision, given);
  read(text);
  size_t length = strlen(text);
  text[draw() % length] = "0123456789.-eExp"[draw() % 16];
  read(text);
  snprintf(text, sizeof text, "%llu.%lluE%+d", (long long)draw() >> draw() % 64, (unsigned long long)draw(), (int)(draw() % 700) - 350);
  read(text);
}

// A number between two neighbours, with all its digits, and with one more digit.
static void read_half(double given) {
  char text[1600];
  f64 bits = bits_of(given);
  if ((bits >> 52 & 2047) >= 2046) return;
  struct number below = from_64(bits);
  if (below.kind != FINITE) return;
  __float128 half = ((__float128)given + double_of(bits + 1)) / 2;
  long double top = (long double)half;
  snprintf(text, sizeof text, "%.1100Lf", top);
  char *end = text + strlen(text) - 1;
  while (*end == '0') *end-- = 0;
  read(text);
  if (draw() % 2) strcat(text, "000000000000000000000000001");
  else --*end;
  read(text);
}

int main(int count, char **words) {
  static const char *const TEXTS[] = {"", "-", "+.", ".", "1e", "1e+", "0x", "0x.", "0x1p", "0x.8p-1", "inf", "-INFINITY", "infinit",
                                      "nan", "nan(", "nan(12_a)", "-nan(1", "1e999", "-1e-999", "0e99999", ".5.5", "1..2", "00000.1e1", "1e400", "1e-400",
                                      "0x1p1023", "0x1p1024", "0x1p-1074", "0x1p-1075", "0x1.8p-1075", "2.2250738585072011e-308",
                                      "179769313486231580793728971405301e276", "4.9406564584124654e-324", "2.4703282292062328e-324"};
  if (count != 3) return 2;
  state = strtoull(words[2], NULL, 10) * 2 + 1;
  for (unsigned i = 0; i < sizeof TEXTS / sizeof *TEXTS; i++) read(TEXTS[i]);
  for (long left = strtol(words[1], NULL, 10); left; left--) {
    write(number());
    read_of(number());
    read_half(number());
  }
  printf("%ld differ\n", wrong);
  return wrong != 0;
}

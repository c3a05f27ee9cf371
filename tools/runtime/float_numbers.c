// strtod and similar functions. This file does not include <stdlib.h>, which may rename them.
#include "float_read.h"
#include <errno.h>

int isspace(int character);

// The number at the start of a text, after white space.
static struct number read(const char *text, char **end) {
  struct number number = zero(false);
  const char *at = text;
  while (isspace((unsigned char)*at)) at++;
  const char *after = hippo_read_float(at, at + strlen(at), false, &number);
  if (end) *end = (char *)(after ? after : text);
  return after ? number : zero(false);
}

// Notes a number that was finite and is not, or that lost digits since it is too small.
static void note_range(struct number given, struct number result, int least) {
  if (given.kind == FINITE && result.kind == INFINITE) errno = ERANGE;
  if (given.kind == FINITE && result.kind == ZERO) errno = ERANGE;
  if (given.kind == FINITE && result.kind == FINITE && result.exponent + 63 < least && given.digits != result.digits) errno = ERANGE;
}

double strtod(const char *restrict text, char **restrict end) {
  struct number number = read(text, end);
  f64 bits = to_64(number);
  note_range(number, from_64(bits), 1 - BIAS_64);
  return double_of(bits);
}

float strtof(const char *restrict text, char **restrict end) {
  struct number number = read(text, end);
  f32 bits = to_32(number);
  note_range(number, from_32(bits), 1 - BIAS_32);
  return float_of(bits);
}

double atof(const char *text) { return strtod(text, 0); }

// The functions of printf's family that write into memory.
#include "format.h"
#include <stdint.h>
#include <stdio.h>
#include <stdlib.h>

int vsnprintf(char *restrict to, size_t size, const char *restrict format, va_list arguments) {
  return hippo_format(to, size, 0, format, arguments);
}

int snprintf(char *restrict to, size_t size, const char *restrict format, ...) {
  va_list arguments;
  va_start(arguments, format);
  int length = hippo_format(to, size, 0, format, arguments);
  va_end(arguments);
  return length;
}

int vsprintf(char *restrict to, const char *restrict format, va_list arguments) {
  return hippo_format(to, SIZE_MAX, 0, format, arguments);
}

int sprintf(char *restrict to, const char *restrict format, ...) {
  va_list arguments;
  va_start(arguments, format);
  int length = hippo_format(to, SIZE_MAX, 0, format, arguments);
  va_end(arguments);
  return length;
}

int vasprintf(char **restrict to, const char *restrict format, va_list arguments) {
  size_t size = hippo_format(NULL, 0, 0, format, arguments) + 1;
  *to = malloc(size);
  return *to ? hippo_format(*to, size, 0, format, arguments) : -1;
}

int asprintf(char **restrict to, const char *restrict format, ...) {
  va_list arguments;
  va_start(arguments, format);
  int length = vasprintf(to, format, arguments);
  va_end(arguments);
  return length;
}

// errno, and the texts of its numbers.
#include <errno.h>
#include <stddef.h>

int snprintf(char *restrict to, size_t size, const char *restrict format, ...);

static int error_number;

int *__errno_location(void) { return &error_number; }

int __xpg_strerror_r(int number, char *to, size_t size) {
  return snprintf(to, size, "error %d", number) < (int)size ? 0 : ERANGE;
}

char *strerror_r(int number, char *to, size_t size) {
  snprintf(to, size, "error %d", number);
  return to;
}

char *strerror(int number) {
  static char text[24];
  return strerror_r(number, text, sizeof text);
}

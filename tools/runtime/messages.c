// The messages of <err.h>: they write no text, and those that end the program end the run (ends.c).
#include <stdarg.h>
#include <stdlib.h>

void warn(const char *format, ...) { (void)format; }

void warnx(const char *format, ...) { (void)format; }

void vwarn(const char *format, va_list arguments) { (void)format, (void)arguments; }

void vwarnx(const char *format, va_list arguments) { (void)format, (void)arguments; }

_Noreturn void err(int status, const char *format, ...) {
  (void)format;
  exit(status);
}

_Noreturn void errx(int status, const char *format, ...) {
  (void)format;
  exit(status);
}

void error(int status, int number, const char *format, ...) {
  (void)number, (void)format;
  if (status) exit(status);
}

void syslog(int priority, const char *format, ...) { (void)priority, (void)format; }

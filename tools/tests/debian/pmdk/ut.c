// In place of PMDK's src/test/unittest/ut.c, for hippo and for the native build: each text that a test writes becomes a number, so that
// both runs can be compared.
#include "unittest.h"
#include <hippo.h>
#include <stdarg.h>

unsigned long Ut_pagesize = 4096;
unsigned long long Ut_mmap_align = 4096;
os_mutex_t Sigactions_lock;

enum { DONE = 1000001, FATAL = 1000002 };

// Prints a number that stands for a text; what depends on the run, such as an address, must not be in it.
static void show(const char *format, va_list arguments) {
  char text[4096];
  if (*format == '!') format++;
  vsnprintf(text, sizeof text, format, arguments);
  unsigned long long sum = 14695981039346656037u;
  for (const char *at = text; *at; at++) sum = (sum ^ (unsigned char)*at) * 1099511628211u;
  print_i64((long long)(sum >> 1));
}

void ut_start(const char *file, int line, const char *func, int argc, char *const argv[], const char *fmt, ...) {
  (void)file, (void)line, (void)func, (void)argv, (void)fmt;
  print_i64(argc);
}

void ut_done(const char *file, int line, const char *func, const char *fmt, ...) {
  (void)file, (void)line, (void)func, (void)fmt;
  print_i64(DONE);
  exit(0);
}

void ut_fatal(const char *file, int line, const char *func, const char *fmt, ...) {
  (void)file, (void)func;
  va_list arguments;
  print_i64(FATAL);
  print_i64(line);
  va_start(arguments, fmt);
  show(fmt, arguments);
  va_end(arguments);
  exit(1);
}

void ut_end(const char *file, int line, const char *func, int ret) {
  (void)file, (void)line, (void)func;
  exit(ret);
}

void ut_out(const char *file, int line, const char *func, const char *fmt, ...) {
  (void)file, (void)line, (void)func;
  va_list arguments;
  va_start(arguments, fmt);
  show(fmt, arguments);
  va_end(arguments);
}

void ut_err(const char *file, int line, const char *func, const char *fmt, ...) {
  (void)file, (void)line, (void)func;
  va_list arguments;
  va_start(arguments, fmt);
  show(fmt, arguments);
  va_end(arguments);
}

void ut_dump_backtrace(void) {}
void ut_sighandler(int number) { (void)number; }
void ut_register_sighandlers(void) {}

int ut_sigaction(const char *file, int line, const char *func, int signum, struct sigaction *act, struct sigaction *oldact) {
  (void)file, (void)line, (void)func, (void)signum, (void)act, (void)oldact;
  return 0;
}

void ut_suppress_errmsg(void) {}
void ut_unsuppress_errmsg(void) {}

uint16_t ut_checksum(uint8_t *addr, size_t len) {
  unsigned first = 0, second = 0;
  for (size_t i = 0; i < len; ++i) {
    first = (first + addr[i]) % 255;
    second = (second + first) % 255;
  }
  return (uint16_t)(second << 8 | first);
}

int ut_snprintf(const char *file, int line, const char *func, char *str, size_t size, const char *format, ...) {
  va_list arguments;
  va_start(arguments, format);
  int length = vsnprintf(str, size, format, arguments);
  va_end(arguments);
  if (length < 0 || (size_t)length >= size) ut_fatal(file, line, func, "snprintf");
  return length;
}

// What the headers of the C library call where _FORTIFY_SOURCE is defined. `room` is the number of bytes of the object that
// a call writes to, or SIZE_MAX if clang does not know it. A call that would write past the object traps.
#include "format.h"
#include <stdint.h>
#include <stdio.h>
#include <string.h>

static void needs(size_t size, size_t room) {
  if (size > room) __builtin_trap();
}

void *__memcpy_chk(void *restrict to, const void *restrict from, size_t size, size_t room) {
  needs(size, room);
  return memcpy(to, from, size);
}

void *__mempcpy_chk(void *restrict to, const void *restrict from, size_t size, size_t room) {
  needs(size, room);
  return mempcpy(to, from, size);
}

void *__memmove_chk(void *to, const void *from, size_t size, size_t room) {
  needs(size, room);
  return memmove(to, from, size);
}

void *__memset_chk(void *to, int byte, size_t size, size_t room) {
  needs(size, room);
  return memset(to, byte, size);
}

char *__strcpy_chk(char *restrict to, const char *restrict from, size_t room) {
  needs(strlen(from) + 1, room);
  return strcpy(to, from);
}

char *__stpcpy_chk(char *restrict to, const char *restrict from, size_t room) {
  needs(strlen(from) + 1, room);
  return stpcpy(to, from);
}

char *__strncpy_chk(char *restrict to, const char *restrict from, size_t size, size_t room) {
  needs(size, room);
  return strncpy(to, from, size);
}

char *__stpncpy_chk(char *restrict to, const char *restrict from, size_t size, size_t room) {
  needs(size, room);
  return stpncpy(to, from, size);
}

char *__strcat_chk(char *restrict to, const char *restrict from, size_t room) {
  needs(strlen(to) + strlen(from) + 1, room);
  return strcat(to, from);
}

char *__strncat_chk(char *restrict to, const char *restrict from, size_t limit, size_t room) {
  needs(strlen(to) + strnlen(from, limit) + 1, room);
  return strncat(to, from, limit);
}

int __vsnprintf_chk(char *restrict to, size_t size, int flag, size_t room, const char *restrict format,
                    va_list arguments) {
  (void)flag;
  needs(size, room);
  return hippo_format(to, size, 0, format, arguments);
}

int __snprintf_chk(char *restrict to, size_t size, int flag, size_t room, const char *restrict format, ...) {
  va_list arguments;
  va_start(arguments, format);
  int length = __vsnprintf_chk(to, size, flag, room, format, arguments);
  va_end(arguments);
  return length;
}

int __vsprintf_chk(char *restrict to, int flag, size_t room, const char *restrict format, va_list arguments) {
  (void)flag;
  int length = hippo_format(to, room, 0, format, arguments);
  needs((size_t)length + 1, room);
  return length;
}

int __sprintf_chk(char *restrict to, int flag, size_t room, const char *restrict format, ...) {
  va_list arguments;
  va_start(arguments, format);
  int length = __vsprintf_chk(to, flag, room, format, arguments);
  va_end(arguments);
  return length;
}

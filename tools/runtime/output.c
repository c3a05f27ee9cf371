// Streams. A run writes no text: each call of output only returns its result, and standard input is at its end. With
// HIPPO_PRINT_NUMBERS the calls that write a format to standard output print each of its numbers with print_i64.
#include "format.h"
#include <errno.h>
#include <stdio.h>

#undef putchar
#undef putc

#ifdef HIPPO_PRINT_NUMBERS
enum { NUMBERS = 1 };
#else
enum { NUMBERS = 0 };
#endif

// A stream is only an address.
static FILE streams[3];
FILE *stdin = &streams[0], *stdout = &streams[1], *stderr = &streams[2];

int vfprintf(FILE *restrict stream, const char *restrict format, va_list arguments) {
  return hippo_format(NULL, 0, NUMBERS && stream == stdout, format, arguments);
}

int vprintf(const char *restrict format, va_list arguments) { return vfprintf(stdout, format, arguments); }

int printf(const char *restrict format, ...) {
  va_list arguments;
  va_start(arguments, format);
  int length = vfprintf(stdout, format, arguments);
  va_end(arguments);
  return length;
}

int fprintf(FILE *restrict stream, const char *restrict format, ...) {
  va_list arguments;
  va_start(arguments, format);
  int length = vfprintf(stream, format, arguments);
  va_end(arguments);
  return length;
}

// The names of these calls where _FORTIFY_SOURCE is defined.
int __vfprintf_chk(FILE *restrict stream, int flag, const char *restrict format, va_list arguments) {
  (void)flag;
  return vfprintf(stream, format, arguments);
}

int __vprintf_chk(int flag, const char *restrict format, va_list arguments) {
  (void)flag;
  return vprintf(format, arguments);
}

int __printf_chk(int flag, const char *restrict format, ...) {
  (void)flag;
  va_list arguments;
  va_start(arguments, format);
  int length = vfprintf(stdout, format, arguments);
  va_end(arguments);
  return length;
}

int __fprintf_chk(FILE *restrict stream, int flag, const char *restrict format, ...) {
  (void)flag;
  va_list arguments;
  va_start(arguments, format);
  int length = vfprintf(stream, format, arguments);
  va_end(arguments);
  return length;
}

int vdprintf(int descriptor, const char *restrict format, va_list arguments) {
  return vfprintf(descriptor == 1 ? stdout : stderr, format, arguments);
}

int dprintf(int descriptor, const char *restrict format, ...) {
  va_list arguments;
  va_start(arguments, format);
  int length = vdprintf(descriptor, format, arguments);
  va_end(arguments);
  return length;
}

int puts(const char *text) {
  (void)text;
  return 1;
}

int fputs(const char *restrict text, FILE *restrict stream) {
  (void)text, (void)stream;
  return 1;
}

int fputc(int c, FILE *stream) {
  (void)stream;
  return (unsigned char)c;
}

int putc(int c, FILE *stream) { return fputc(c, stream); }

int putchar(int c) { return fputc(c, stdout); }

size_t fwrite(const void *restrict from, size_t size, size_t count, FILE *restrict stream) {
  (void)from, (void)stream;
  return size ? count : 0;
}

int fflush(FILE *stream) {
  (void)stream;
  return 0;
}

void perror(const char *text) { (void)text; }

int fclose(FILE *stream) {
  (void)stream;
  return 0;
}

int ferror(FILE *stream) {
  (void)stream;
  return 0;
}

int fileno(FILE *stream) { return (int)(stream - streams); }

int setvbuf(FILE *restrict stream, char *restrict buffer, int mode, size_t size) {
  (void)stream, (void)buffer, (void)mode, (void)size;
  return 0;
}

void setbuf(FILE *restrict stream, char *restrict buffer) { setvbuf(stream, buffer, 0, 0); }

// Only pools exist as files, and standard input is at its end: read_i64 gives the numbers.
FILE *fopen(const char *restrict path, const char *restrict mode) {
  (void)path, (void)mode;
  errno = ENOENT;
  return NULL;
}

int fgetc(FILE *stream) {
  (void)stream;
  return EOF;
}

int getc(FILE *stream) { return fgetc(stream); }

int getchar(void) { return EOF; }

char *fgets(char *restrict to, int size, FILE *restrict stream) {
  (void)to, (void)size, (void)stream;
  return NULL;
}

size_t fread(void *restrict to, size_t size, size_t count, FILE *restrict stream) {
  (void)to, (void)size, (void)count, (void)stream;
  return 0;
}

int ungetc(int c, FILE *stream) {
  (void)c, (void)stream;
  return EOF;
}

int feof(FILE *stream) { return stream == stdin; }

void clearerr(FILE *stream) { (void)stream; }

int fseek(FILE *stream, long offset, int from) {
  (void)stream, (void)offset, (void)from;
  errno = ESPIPE;
  return -1;
}

long ftell(FILE *stream) { return fseek(stream, 0, SEEK_CUR); }

void rewind(FILE *stream) { (void)stream; }

void setlinebuf(FILE *stream) { setvbuf(stream, NULL, 0, 0); }

FILE *fdopen(int descriptor, const char *mode) {
  if (descriptor >= 0 && descriptor < 3) return &streams[descriptor];
  return fopen("", mode);
}

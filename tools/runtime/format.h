// Formatted text, for printf and similar functions.
#ifndef HIPPO_FORMAT_H
#define HIPPO_FORMAT_H

#include <stdarg.h>
#include <stddef.h>

// Writes the text into `size` bytes, as vsnprintf does. If `numbers` is not 0, it also prints each number by print_i64.
int hippo_format(char *to, size_t size, int numbers, const char *format, va_list arguments);

#endif

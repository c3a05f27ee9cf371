// Floating-point numbers that are read from texts.
#ifndef HIPPO_FLOAT_READ_H
#define HIPPO_FLOAT_READ_H

#include "float_bits.h"

// Reads the number at the start of the text before `end`, as strtod does, or as scanf does, which never goes back; returns the first
// character after it, or null if there is no number.
const char *hippo_read_float(const char *text, const char *end, bool scanned, struct number *number);

#endif

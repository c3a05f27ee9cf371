// The text of a floating-point number, for printf and similar functions.
#ifndef HIPPO_FLOAT_TEXT_H
#define HIPPO_FLOAT_TEXT_H

#include <stdbool.h>

enum { HIPPO_DIGITS = 800, HIPPO_PIECES = 8 };

// Bytes, or as many zeros where there are none.
struct hippo_piece {
  const char *bytes;
  int count;
};

struct hippo_float_text {
  bool negative, is_finite;
  const char *prefix; // of hexadecimal digits
  struct hippo_piece pieces[HIPPO_PIECES];
  int piece_count, length; // the length of all pieces
  char digits[HIPPO_DIGITS], exponent[8];
};

// Makes the text of a number for one of the conversions aAeEfFgG, without its sign. A precision that is not given is -1.
void hippo_float_text(struct hippo_float_text *text, double number, char conversion, int precision, bool alternate);

#endif

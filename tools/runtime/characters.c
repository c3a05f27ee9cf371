// Kinds of characters in the C locale, and the tables by which the macros of <ctype.h> look them up.

int isdigit(int c) { return c >= '0' && c <= '9'; }
int isupper(int c) { return c >= 'A' && c <= 'Z'; }
int islower(int c) { return c >= 'a' && c <= 'z'; }
int isalpha(int c) { return isupper(c) || islower(c); }
int isalnum(int c) { return isalpha(c) || isdigit(c); }
int isxdigit(int c) { return isdigit(c) || (c >= 'A' && c <= 'F') || (c >= 'a' && c <= 'f'); }
int isblank(int c) { return c == ' ' || c == '\t'; }
int isspace(int c) { return c == ' ' || (c >= '\t' && c <= '\r'); }
int isprint(int c) { return c >= ' ' && c <= '~'; }
int isgraph(int c) { return c > ' ' && c <= '~'; }
int iscntrl(int c) { return (c >= 0 && c < ' ') || c == 127; }
int ispunct(int c) { return isgraph(c) && !isalnum(c); }
int isascii(int c) { return c >= 0 && c <= 127; }
int toascii(int c) { return c & 127; }
int tolower(int c) { return isupper(c) ? c + ('a' - 'A') : c; }
int toupper(int c) { return islower(c) ? c - ('a' - 'A') : c; }

// The tables of the system's <ctype.h> (the Linux Standard Base names them) are indexed from -128 to 255; those from -128
// to -2 repeat the upper half, which has no kind in the C locale. The first call fills a table.
enum { BELOW = 128, ENTRIES = 384 };

static unsigned short kinds[ENTRIES];
static int lower[ENTRIES], upper[ENTRIES];
static const unsigned short *kinds_at_zero;
static const int *lower_at_zero, *upper_at_zero;

// Each kind has the bit of its number, in the order of bytes that puts the first eight in the upper byte.
static unsigned short kinds_of(int c) {
  int (*const tests[])(int) = {isupper, islower, isalpha, isdigit, isxdigit, isspace,
                               isprint, isgraph, isblank, iscntrl, ispunct,  isalnum};
  unsigned bits = 0;
  for (int kind = 0; kind < 12; kind++)
    if (tests[kind](c)) bits |= 1u << (kind < 8 ? kind + 8 : kind - 8);
  return (unsigned short)bits;
}

const unsigned short **__ctype_b_loc(void) {
  if (!kinds_at_zero) {
    for (int c = 0; c < 128; c++) kinds[BELOW + c] = kinds_of(c);
    kinds_at_zero = kinds + BELOW;
  }
  return &kinds_at_zero;
}

static const int *filled(int *table, int (*change)(int)) {
  for (int c = -BELOW; c < ENTRIES - BELOW; c++) table[BELOW + c] = c < -1 ? c + 256 : change(c);
  return table + BELOW;
}

const int **__ctype_tolower_loc(void) {
  if (!lower_at_zero) lower_at_zero = filled(lower, tolower);
  return &lower_at_zero;
}

const int **__ctype_toupper_loc(void) {
  if (!upper_at_zero) upper_at_zero = filled(upper, toupper);
  return &upper_at_zero;
}

// The calls that the headers make of copies and formats where _FORTIFY_SOURCE is defined.
#define _FORTIFY_SOURCE 2
#include "check.h"
#include <stdarg.h>
#include <stdio.h>
#include <string.h>

enum { SIZE = 64 };

static char a[SIZE], b[SIZE];
static const char *volatile words[] = {"", "a", "seven", "some longer text"};

static int formatted(char *to, size_t size, const char *format, ...) {
  va_list arguments;
  va_start(arguments, format);
  int length = size ? vsnprintf(to, size, format, arguments) : vsprintf(b, format, arguments);
  va_end(arguments);
  return length;
}

static void texts(const char *text) {
  size_t length = strlen(text);
  note(strcpy(a, text) == a);
  note(stpcpy(b, text) - b);
  note(strcat(a, text) == a);
  note(strncat(b, text, length / 2) == b);
  note(strncpy(a + 40, text, length + 3) == a + 40);
  note(stpncpy(b + 40, text, length + 3) - b);
  note_bytes(a, SIZE);
  note_bytes(b, SIZE);
}

static void bytes(size_t size) {
  note(memset(a, (int)size, size) == a);
  note(memcpy(b + size, a, size) == b + size);
  note(memmove(a + 1, a, size) == a + 1);
  note((char *)mempcpy(b, a, size) - b);
  note_bytes(a, SIZE);
  note_bytes(b, SIZE);
}

static void formats(const char *text, int number) {
  note(sprintf(a, "%d %s", number, text));
  note(snprintf(b, (size_t)number, "%s-%d", text, number));
  note(formatted(a + 30, (size_t)number, "%x%s", number, text));
  note(formatted(a, 0, "%s%d", text, number));
  note_bytes(a, SIZE);
  note_bytes(b, SIZE);
}

int main(void) {
  for (int i = 0; i < 4; i++) {
    texts(words[i]);
    bytes(draw(SIZE / 2));
    formats(words[i], 1 + (int)draw(20));
    print_sum();
  }
  fprintf(stderr, "%d%s\n", (int)draw(9), words[1]);
  return 0;
}

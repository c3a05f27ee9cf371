// Strings of wide characters.
#include "check.h"
#include <stdlib.h>
#include <wchar.h>

enum { SIZE = 24 };

int main(void) {
  for (int round = 0; round < 300; round++) {
    wchar_t left[SIZE] = {0}, right[SIZE] = {0}, to[2 * SIZE];
    unsigned length = draw(SIZE);
    for (unsigned i = 0; i < length; i++) left[i] = right[i] = (wchar_t)(draw(3) + 1) * (draw(9) ? 1 : -70000);
    if (length && draw(2)) right[draw(length)] = draw(2) ? 0 : -1;
    note((long long)wcslen(left)), note((long long)wcsnlen(left, 7));
    note(sign(wcscmp(left, right))), note(sign(wcsncmp(left, right, draw(SIZE)))), note(sign(wmemcmp(left, right, SIZE)));
    note(wcscpy(to, left) == to), note(wcscat(to, right) == to);
    note_bytes(to, (wcslen(to) + 1) * sizeof *to);
    note(wcsncpy(to, right, SIZE) == to), note_bytes(to, SIZE * sizeof *to);
    wchar_t c = (wchar_t)draw(4);
    const wchar_t *first = wcschr(left, c), *last = wcsrchr(left, c);
    note(first ? first - left : -1), note(last ? last - left : -1);
    wchar_t *copy = wcsdup(right);
    note(wcscmp(copy, right)), note(copy != right);
    free(copy);
    note(wmemset(to, c, 5) == to), note_bytes(to, 5 * sizeof *to);
  }
  print_sum();
  return 0;
}

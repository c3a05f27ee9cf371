// Strings and blocks of wide characters.
#include <stddef.h>
#include <stdlib.h>
#include <wchar.h>

size_t wcslen(const wchar_t *text) {
  size_t length = 0;
  while (text[length]) length++;
  return length;
}

size_t wcsnlen(const wchar_t *text, size_t most) {
  size_t length = 0;
  while (length < most && text[length]) length++;
  return length;
}

wchar_t *wmemcpy(wchar_t *to, const wchar_t *from, size_t count) {
  for (size_t at = 0; at < count; at++) to[at] = from[at];
  return to;
}

wchar_t *wmemmove(wchar_t *to, const wchar_t *from, size_t count) {
  if (to <= from || to >= from + count) return wmemcpy(to, from, count);
  while (count--) to[count] = from[count];
  return to;
}

wchar_t *wmemset(wchar_t *to, wchar_t letter, size_t count) {
  for (size_t at = 0; at < count; at++) to[at] = letter;
  return to;
}

int wmemcmp(const wchar_t *one, const wchar_t *two, size_t count) {
  for (size_t at = 0; at < count; at++)
    if (one[at] != two[at]) return one[at] < two[at] ? -1 : 1;
  return 0;
}

wchar_t *wmemchr(const wchar_t *from, wchar_t letter, size_t count) {
  for (; count--; from++)
    if (*from == letter) return (wchar_t *)from;
  return NULL;
}

int wcscmp(const wchar_t *one, const wchar_t *two) {
  while (*one && *one == *two) one++, two++;
  return *one == *two ? 0 : *one < *two ? -1 : 1;
}

int wcsncmp(const wchar_t *one, const wchar_t *two, size_t count) {
  for (; count--; one++, two++)
    if (*one != *two || !*one) return *one == *two ? 0 : *one < *two ? -1 : 1;
  return 0;
}

wchar_t *wcscpy(wchar_t *to, const wchar_t *from) { return wmemcpy(to, from, wcslen(from) + 1); }

wchar_t *wcscat(wchar_t *to, const wchar_t *from) {
  wcscpy(to + wcslen(to), from);
  return to;
}

wchar_t *wcschr(const wchar_t *text, wchar_t letter) {
  for (;; text++) {
    if (*text == letter) return (wchar_t *)text;
    if (!*text) return NULL;
  }
}

wchar_t *wcsrchr(const wchar_t *text, wchar_t letter) {
  const wchar_t *found = NULL;
  for (;; text++) {
    if (*text == letter) found = text;
    if (!*text) return (wchar_t *)found;
  }
}

wchar_t *wcsncpy(wchar_t *to, const wchar_t *from, size_t size) {
  size_t length = wcsnlen(from, size);
  wmemcpy(to, from, length);
  wmemset(to + length, 0, size - length);
  return to;
}

wchar_t *wcsdup(const wchar_t *text) {
  wchar_t *copy = malloc((wcslen(text) + 1) * sizeof *text);
  return copy ? wcscpy(copy, text) : NULL;
}

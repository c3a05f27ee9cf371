// Strings that end with a zero byte: measured, compared and searched.
#include <stddef.h>
#include <string.h>
#include <strings.h>

int tolower(int character);

size_t strlen(const char *text) {
  size_t length = 0;
  while (text[length]) length++;
  return length;
}

size_t strnlen(const char *text, size_t limit) {
  size_t length = 0;
  while (length < limit && text[length]) length++;
  return length;
}

int strcmp(const char *left, const char *right) {
  for (; *left && *left == *right; left++) right++;
  return (unsigned char)*left - (unsigned char)*right;
}

int strncmp(const char *left, const char *right, size_t limit) {
  for (; limit && *left && *left == *right; limit--) left++, right++;
  return limit ? (unsigned char)*left - (unsigned char)*right : 0;
}

int strcoll(const char *left, const char *right) { return strcmp(left, right); }

static int folded(const char *text) { return tolower((unsigned char)*text); }

int strcasecmp(const char *left, const char *right) {
  for (; *left && folded(left) == folded(right); left++) right++;
  return folded(left) - folded(right);
}

int strncasecmp(const char *left, const char *right, size_t limit) {
  for (; limit && *left && folded(left) == folded(right); limit--) left++, right++;
  return limit ? folded(left) - folded(right) : 0;
}

char *strchrnul(const char *text, int character) {
  while (*text && *text != (char)character) text++;
  return (char *)text;
}

char *strchr(const char *text, int character) {
  char *found = strchrnul(text, character);
  return *found == (char)character ? found : NULL;
}

char *index(const char *text, int character) { return strchr(text, character); }

char *strrchr(const char *text, int character) { return memrchr(text, character, strlen(text) + 1); }

char *rindex(const char *text, int character) { return strrchr(text, character); }

char *strstr(const char *text, const char *part) { return memmem(text, strlen(text), part, strlen(part)); }

char *strcasestr(const char *text, const char *part) {
  size_t length = strlen(part);
  for (size_t left = strlen(text); left >= length; left--, text++)
    if (strncasecmp(text, part, length) == 0) return (char *)text;
  return NULL;
}

size_t strspn(const char *text, const char *accepted) {
  size_t length = 0;
  while (text[length] && strchr(accepted, text[length])) length++;
  return length;
}

size_t strcspn(const char *text, const char *rejected) {
  size_t length = 0;
  while (text[length] && !strchr(rejected, text[length])) length++;
  return length;
}

char *strpbrk(const char *text, const char *accepted) {
  const char *found = text + strcspn(text, accepted);
  return *found ? (char *)found : NULL;
}

char *strsep(char **text, const char *separators) {
  char *word = *text;
  if (!word) return NULL;
  char *end = word + strcspn(word, separators);
  *text = *end ? end + 1 : NULL;
  *end = 0;
  return word;
}

char *strtok_r(char *restrict text, const char *restrict separators, char **restrict rest) {
  if (!text) text = *rest;
  char *word = text + strspn(text, separators);
  char *end = word + strcspn(word, separators);
  *rest = *end ? end + 1 : end;
  if (word == end) return NULL;
  *end = 0;
  return word;
}

char *strtok(char *restrict text, const char *restrict separators) {
  static char *rest;
  return strtok_r(text, separators, &rest);
}

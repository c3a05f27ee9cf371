#include "check.h"
#include <stdlib.h>
#include <string.h>
#include <strings.h>

enum { SIZE = 40, ROUNDS = 80 };

static void make(char *to, unsigned letters) {
  unsigned length = draw(SIZE / 2);
  for (unsigned i = 0; i < length; i++) to[i] = "abABc,; xyz\xe9Z"[draw(letters)];
  to[length] = 0;
}

static int place(const char *found, const char *from) { return found ? (int)(found - from) : -1; }

static void comparisons(void) {
  char a[SIZE], b[SIZE];
  for (int round = 0; round < ROUNDS; round++) {
    make(a, 4);
    make(b, 4);
    if (draw(2)) memcpy(b, a, 4);
    b[SIZE - 1] = 0;
    size_t limit = draw(12);
    note((long long)strlen(a));
    note((long long)strnlen(a, limit));
    note(sign(strcmp(a, b)));
    note(sign(strncmp(a, b, limit)));
    note(sign(strcoll(a, b)));
    note(sign(strcasecmp(a, b)));
    note(sign(strncasecmp(a, b, limit)));
  }
  print_sum();
}

static void searches(void) {
  char a[SIZE], b[SIZE];
  for (int round = 0; round < ROUNDS; round++) {
    make(a, 13);
    make(b, 7);
    int c = "ab,Z\0q"[draw(6)];
    note(place(strchr(a, c), a));
    note(place(strrchr(a, c), a));
    note(place(strchrnul(a, c), a));
    note(place(index(a, c), a));
    note(place(rindex(a, c), a));
    note((long long)strspn(a, b));
    note((long long)strcspn(a, b));
    note(place(strpbrk(a, b), a));
    b[draw(3)] = 0;
    note(place(strstr(a, b), a));
    note(place(strcasestr(a, b), a));
  }
  print_sum();
}

static void tokens(void) {
  char a[SIZE], *rest;
  for (int round = 0; round < ROUNDS; round++) {
    make(a, 13);
    for (char *word = strtok(a, ",; "); word; word = strtok(NULL, ",; ")) note_bytes(word, strlen(word) + 1);
    make(a, 13);
    for (char *word = strtok_r(a, ",", &rest); word; word = strtok_r(NULL, ", ", &rest)) note_bytes(word, strlen(word));
    make(a, 13);
    rest = a;
    for (char *word; (word = strsep(&rest, ",;"));) note_bytes(word, strlen(word) + 1);
  }
  print_sum();
}

static void copies(void) {
  char a[SIZE], b[3 * SIZE];
  for (int round = 0; round < ROUNDS; round++) {
    make(a, 13);
    memset(b, 'q', sizeof b);
    note(strcpy(b, a) - b);
    note(stpcpy(b + 1, a) - b);
    note(strcat(b, a) - b);
    note(strncat(b, a, draw(10)) - b);
    note_bytes(b, sizeof b);
    size_t size = draw(20);
    note(strncpy(b, a, size) - b);
    note(stpncpy(b + 20, a, size) - b);
    note_bytes(b, sizeof b);
    note((long long)strxfrm(b, a, size ? size : 1));
    char *copy = strdup(a), *part = strndup(a, size);
    note_bytes(copy, strlen(copy) + 1);
    note_bytes(part, strlen(part) + 1);
    free(copy);
    free(part);
  }
  print_sum();
}

int main(void) {
  comparisons();
  searches();
  tokens();
  copies();
  return 0;
}

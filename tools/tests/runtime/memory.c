#include "check.h"
#include <string.h>
#include <strings.h>

enum { SIZE = 96, ROUNDS = 60 };
static unsigned char a[SIZE], b[SIZE];

static void fill(void) {
  for (int i = 0; i < SIZE; i++) {
    a[i] = (unsigned char)(draw(3) ? draw(4) : draw(256));
    b[i] = (unsigned char)(draw(8) ? a[i] : draw(256));
  }
}

static void copies(void) {
  for (int round = 0; round < ROUNDS; round++) {
    fill();
    size_t to = draw(40), from = draw(40), size = draw(40);
    void *(*volatile copy)(void *, const void *, size_t) = memcpy;
    note((unsigned char *)copy(a + to, b + from, size) - a);
    void *(*volatile move)(void *, const void *, size_t) = memmove;
    note((unsigned char *)move(a + from, a + to, size) - a);
    void *(*volatile set)(void *, int, size_t) = memset;
    note((unsigned char *)set(b + from, (int)draw(256), size) - b);
    note((unsigned char *)mempcpy(b + to, a + from, size) - b);
    unsigned char *end = memccpy(a + to, b + from, (int)draw(4), size);
    note(end ? end - a : -1);
    bcopy(b + to, b + from, size);
    bzero(a + from, size / 2);
    explicit_bzero(b + to, size / 3);
    note_bytes(a, SIZE);
    note_bytes(b, SIZE);
  }
  print_sum();
}

static void searches(void) {
  for (int round = 0; round < ROUNDS; round++) {
    fill();
    size_t at = draw(20), size = draw(60), other = draw(3) ? at : draw(20);
    int (*volatile compare)(const void *, const void *, size_t) = memcmp;
    note(sign(compare(a + at, b + other, size)));
    note(bcmp(a + at, b + other, size) != 0);
    int byte = (int)draw(6);
    unsigned char *found = memchr(a + at, byte, size);
    note(found ? found - a : -1);
    found = memrchr(a + at, byte, size);
    note(found ? found - a : -1);
    a[SIZE - 1] = (unsigned char)byte;
    note((unsigned char *)rawmemchr(a + at, byte) - a);
    found = memmem(a + at, size, b + other, draw(4));
    note(found ? found - a : -1);
  }
  print_sum();
}

int main(void) {
  copies();
  searches();
  return 0;
}

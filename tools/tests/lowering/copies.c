// Copies and settings of memory at each alignment and of many sizes, in both directions.
#include <hippo.h>
#include <stdint.h>
#include <string.h>

static _Alignas(8) unsigned char bytes[128], others[128];

static void fill(void) {
  for (int i = 0; i < 128; i++) {
    bytes[i] = (unsigned char)(i * 7 + 1);
    others[i] = (unsigned char)(200 - i);
  }
}

static uint64_t sum_of(const unsigned char *from, uint64_t sum) {
  for (int i = 0; i < 128; i++) {
    sum = sum * 31 + from[i];
  }
  return sum;
}

static void copy(void *to, const void *from, uint64_t size) { memcpy(to, from, size); }
static void move(void *to, const void *from, uint64_t size) { memmove(to, from, size); }
static void set(void *to, int byte, uint64_t size) { memset(to, byte, size); }
static void copy_words(uint64_t *to, const uint64_t *from, uint64_t size) { memcpy(to, from, size); }
static void copy_eleven(char *to, const char *from) { memcpy(to, from, 11); }
static int pick(const int table[static 4], int i) { return i > 3 ? table[3] : i == 2 ? 0 : 1; }

int main(void) {
  uint64_t sum = 0;
  fill();
  for (int at = 0; at < 9; at++) {
    for (int from = 0; from < 9; from += 3) {
      for (uint64_t size = 0; size < 30; size += at % 3 + 2) {
        copy(others + at, bytes + from, size);
        move(bytes + 20 + at, bytes + 20 + from, size);
        move(bytes + 60 + from, bytes + 60 + at, size);
        set(others + 64 + at, (int)size + from, size);
        sum = sum_of(others, sum_of(bytes, sum));
      }
    }
  }
  print_i64((long long)sum);
  copy_words((uint64_t *)(void *)(others + 8), (const uint64_t *)(const void *)bytes, (uint64_t)read_i64() + 29);
  copy_eleven((char *)others + 3, (char *)bytes + 50);
  memcpy(bytes, bytes, 64);
  print_i64((long long)sum_of(others, sum_of(bytes, 0)));
  const int table[4] = {5, 6, 7, 8};
  print_i64(pick(table, 9) + pick(table, 2) * 10 + pick(table, 1) * 100);
  return 0;
}

// Code that clang compiles to intrinsics and constant expressions; the lowered text must print what this program prints.
#include <hippo.h>
#include <stdbool.h>
#include <stdint.h>
#include <string.h>

struct inner {
  uint8_t kind;
  uint32_t length;
  int64_t words[3];
};

struct __attribute__((packed)) header {
  uint32_t magic;
  uint16_t version;
  uint16_t flags;
  uint64_t size;
};

PERSISTENT uint8_t region[256];
PERSISTENT struct inner saved = {7, 5, {-1, 2, -3}};
static const char text[] = "a text with \"quotes\" and \377\n";
static int64_t *const third = &saved.words[2];
static struct inner volatile_copy;
struct header header = {0x48495050, 3, 1, 1ull << 40};

static uint64_t hash(const uint8_t *from, uint64_t size) {
  uint64_t sum = 14695981039346656037u;
  for (uint64_t i = 0; i < size; i++) {
    sum = (sum ^ from[i]) * 1099511628211u;
  }
  return sum;
}

static void copies(uint64_t size) {
  memset(region, (int)size, sizeof region);
  memcpy(region + 3, text, sizeof text);
  memmove(region + 5, region + 1, size);
  print_i64((long long)hash(region, sizeof region));
  memmove(region + 1, region + 5, size);
  memset(region + 200, 0xa5, size & 31);
  print_i64((long long)hash(region, sizeof region));
}

static void aligned_copies(int64_t count) {
  int64_t words[16], others[16];
  for (int64_t i = 0; i < 16; i++) {
    words[i] = i * 257;
    others[i] = 0;
  }
  memcpy(others, words, (size_t)count * sizeof(int64_t) + 3);
  memmove(words + 1, words, (size_t)count * sizeof(int64_t) + 5);
  memmove(others, others + 1, (size_t)count * sizeof(int64_t) + 1);
  print_i64((long long)(hash((const uint8_t *)words, sizeof words) ^ hash((const uint8_t *)others, sizeof others)));
  memset(words, 0x7e, (size_t)count * sizeof(int64_t) + 2);
  print_i64((long long)hash((const uint8_t *)words, sizeof words));
}

static uint64_t bits(uint64_t x, uint32_t y) {
  uint64_t sum = (x << 13 | x >> 51) + (y << (y & 31) | y >> (-y & 31));
  sum += (x >> (y & 63) | x << (-y & 63)) + ((uint32_t)x >> (y & 31) | y << (-y & 31));
  sum += __builtin_bswap64(x) ^ __builtin_bswap32(y) ^ __builtin_bswap16((uint16_t)y);
  sum += (uint64_t)__builtin_popcountll(x) * 3 + (uint64_t)__builtin_popcount(y);
  if (x != 0 && y != 0) {
    sum += (uint64_t)__builtin_ctzll(x) * 5 + (uint64_t)__builtin_clzll(x) * 7;
    sum += (uint64_t)__builtin_ctz(y) * 11 + (uint64_t)__builtin_clz(y) * 13;
  }
  return sum;
}

static int64_t choices(int64_t a, int64_t b, uint32_t c) {
  int64_t least = a < b ? a : b;
  uint32_t most = c > 99 ? c : 99;
  int64_t distance = a < 0 ? -a : a;
  uint32_t down = c > 50 ? c - 50 : 0;
  int order = (a > b) - (a < b);
  bool odd = (a & 1) != 0;
  switch (c % 7) {
  case 0:
    return least;
  case 1:
    return most + (odd ? 1 : 2);
  case 3:
    return distance;
  case 5:
    return down;
  default:
    return order * 1000 + (int64_t)odd;
  }
}

int main(void) {
  copies(17);
  copies(64);
  aligned_copies(3);
  aligned_copies(9);
  volatile_copy = saved;
  saved.length++;
  print_i64(volatile_copy.words[0] + *third + volatile_copy.kind + saved.length);
  print_i64((long long)(header.magic + header.version + header.flags + header.size));
  for (uint32_t i = 0; i < 40; i++) {
    print_i64((long long)bits(i * 0x9e3779b97f4a7c15u, i * 2654435769u));
    print_i64(choices((int64_t)i * 77 - 900, 100 - (int64_t)i * 31, i * 11));
  }
  print_i64((short)header.version - ((intptr_t)&region[9] - (intptr_t)&region[1]));
  return 0;
}

// Builtins of clang: overflow, saturation, bits, alignment of pointers, sizes of objects.
#include <hippo.h>
#include <stdint.h>
#include <stdbool.h>

static uint64_t seed;
static uint64_t next(void) { seed ^= seed << 13; seed ^= seed >> 7; seed ^= seed << 17; return seed >> (seed & 63); }
static char buffer[64];

#define OVERFLOWS(type) do { \
    type a = (type)next(), b = (type)next(), c; \
    bool x = __builtin_add_overflow(a, b, &c); print_i64((long long)c * 2 + x); \
    x = __builtin_sub_overflow(a, b, &c); print_i64((long long)c * 2 + x); \
    x = __builtin_mul_overflow(a, b, &c); print_i64((long long)c * 2 + x); \
  } while (0)

static int32_t saturated(int32_t a, int32_t b) {
  int32_t c;
  return __builtin_add_overflow(a, b, &c) ? (a < 0 ? INT32_MIN : INT32_MAX) : c;
}

int main(void) {
  seed = 1234567891011u + (uint64_t)read_i64();
  for (int i = 0; i < 20; i++) {
    OVERFLOWS(int8_t); OVERFLOWS(uint8_t); OVERFLOWS(int16_t); OVERFLOWS(uint16_t);
    OVERFLOWS(int32_t); OVERFLOWS(uint32_t); OVERFLOWS(int64_t); OVERFLOWS(uint64_t);
    uint64_t x = next();
    print_i64((long long)(__builtin_bitreverse64(x) ^ __builtin_bitreverse8((uint8_t)x)));
    print_i64((long long)(__builtin_bitreverse32((uint32_t)x) + __builtin_bitreverse16((uint16_t)x)));
    print_i64(__builtin_parityll(x) + __builtin_ffsll((long long)x) + __builtin_clrsb((int)x));
    print_i64((long long)__builtin_rotateleft64(x, (unsigned)i) ^ __builtin_rotateright32((uint32_t)x, (unsigned)i));
    print_i64(saturated((int32_t)x, (int32_t)next()));
    print_i64(__builtin_align_up(buffer + (x & 31), 16) - buffer - ((__builtin_align_up(buffer, 16) - buffer)) >= 0);
  }
  print_i64((long long)__builtin_object_size(buffer, 0));
  print_i64(__builtin_constant_p(seed) + __builtin_expect(seed == 0, 0));
  return 0;
}

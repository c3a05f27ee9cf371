// Integers of other widths: 128 bits, bit fields, and what clang makes of structs of odd sizes.
#include <hippo.h>
#include <stdint.h>

typedef unsigned __int128 wide;
typedef __int128 signed_wide;

struct fields { signed a : 5; unsigned b : 13; signed long long c : 33; unsigned long long d : 60; };
static struct fields fields = {-3, 99, -7, 12};
static wide constant = (wide)0x123456789abcdef0u << 64 | 0xfedcba9876543210u;
static struct { char c; wide w; } padded = {1, 5};

static void show(wide w) { print_i64((long long)w); print_i64((long long)(w >> 64)); }
static wide product(uint64_t a, uint64_t b) { return (wide)a * b; }
static signed_wide signed_product(int64_t a, int64_t b) { return (signed_wide)a * b; }
static uint64_t remainder_of(uint64_t a, uint64_t b, uint64_t m) { return (uint64_t)((wide)a * b % m); }
static wide shifts(wide w, int by) { return (w << by) ^ (w >> (by + 3)) ^ (wide)((signed_wide)w >> (by + 1)); }

static wide rotated(wide w, int by) { return w << by | w >> (-by & 127); }
static int top(wide w) { return (uint64_t)(w >> 64) ? __builtin_clzll((uint64_t)(w >> 64)) : 64; }

int main(void) {
  uint64_t seed = 88172645463325252u + (uint64_t)read_i64();
  for (int i = 0; i < 12; i++) {
    seed ^= seed << 13; seed ^= seed >> 7; seed ^= seed << 17;
    uint64_t other = seed * 0x9e3779b97f4a7c15u + (uint64_t)i;
    show(product(seed, other));
    show((wide)signed_product((int64_t)seed, (int64_t)other));
    print_i64((long long)remainder_of(seed, other, other ^ (seed >> 9) | 1));
    wide w = (wide)seed << 64 | other;
    show(shifts(w, i * 10 + 1));
    show(w + constant); show(w - constant); show(w * constant); show(-w);
    show(w / (other | 1)); show((wide)((signed_wide)w / -(signed_wide)(i + 3)));
    print_i64((w < constant) * 8 + ((signed_wide)w < (signed_wide)constant) * 4 + (w == constant) * 2 + (w >= constant));
    padded.w += w; show(padded.w);
    show(rotated(w, i * 11 & 127)); print_i64(top(w >> i * 7)); show(w > constant ? w : constant);
    wide sum; signed_wide difference;
    print_i64(__builtin_add_overflow(w, constant, &sum)); show(sum);
    print_i64(__builtin_sub_overflow((signed_wide)w, (signed_wide)constant, &difference)); show((wide)difference);
    show((signed_wide)w < 0 ? -w : w);
    fields.a += i; fields.b *= 3; fields.c = fields.c * 5 - i; fields.d += seed;
    print_i64(fields.a); print_i64(fields.b); print_i64(fields.c); print_i64((long long)fields.d);
    show((wide)(signed_wide)(int)seed + (uint8_t)other);
  }
  return 0;
}

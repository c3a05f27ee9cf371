// Compares tools/runtime/floats.c with the processor: each operation on random operands, COUNT of them from SEED. It prints what differs.
#include "../runtime/floats.c"
#include <immintrin.h>
#include <math.h>
#include <stdio.h>
#include <stdlib.h>

static uint64_t state;

static uint64_t draw(void) {
  state ^= state << 13;
  state ^= state >> 7;
  return state ^= state << 17;
}

// Any bits, exponents that are near to one another, small integers, subnormal numbers, infinities, and numbers near to one.
static f64 operand_64(void) {
  uint64_t bits = draw();
  switch (draw() % 8) {
  case 0: return bits;
  case 1: return (bits & ~infinity_64) | (1000 + draw() % 50) << 52;
  case 2: return bits_of((double)(int64_t)(draw() % 1000) - 500);
  case 3: return bits & ~infinity_64;
  case 4: return draw() % 8 ? bits & ~infinity_64 & ~(((uint64_t)1 << 40) - 1) : infinity_64 | (bits & highest_bit);
  case 5: return (bits & ~infinity_64) | (1022 + draw() % 3) << 52;
  case 6: return bits & (highest_bit | infinity_64 | 3);
  default: return (bits & highest_bit) | (2045 + draw() % 2) << 52 | draw() >> 12;
  }
}

static f32 operand_32(void) {
  f32 bits = (f32)draw();
  switch (draw() % 6) {
  case 0: return bits;
  case 1: return (bits & ~infinity_32) | (f32)(110 + draw() % 30) << 23;
  case 2: return bits_of_float((float)(int64_t)(draw() % 1000) - 500);
  case 3: return bits & ~infinity_32;
  case 4: return bits & ((f32)1 << 31 | infinity_32 | 3);
  default: return (bits & ~infinity_32) | (f32)(126 + draw() % 3) << 23;
  }
}

static long wrong;

static void compare(const char *name, uint64_t a, uint64_t b, uint64_t c, uint64_t got, uint64_t wanted) {
  if (got == wanted || ++wrong > 20) return;
  printf("%s of %llx, %llx, %llx: %llx where the processor gives %llx\n", name, (long long)a, (long long)b, (long long)c, (long long)got,
         (long long)wanted);
}

// One number that is none for all of them, where the C library decides which.
static f64 same_64(f64 a) { return hippo_f64_fcmp(a, a, UNORDERED) ? 0 : a; }
static f32 same_32(f32 a) { return hippo_f32_fcmp(a, a, UNORDERED) ? 0 : a; }

// The place of a number's class among those of LLVM.
static int class_of(int kind, int negative, int is_quiet) {
  int distance = kind == FP_ZERO ? 0 : kind == FP_SUBNORMAL ? 1 : kind == FP_NORMAL ? 2 : 3;
  if (kind == FP_NAN) return is_quiet;
  return negative ? 5 - distance : 6 + distance;
}

#define TWO(NAME, INSTRUCTION, TYPE, BITS, NUMBER) do { \
    TYPE result = NUMBER(a); \
    __asm__(INSTRUCTION " %1, %0" : "+x"(result) : "x"(NUMBER(b))); \
    compare(#NAME, a, b, 0, NAME(a, b), BITS(result)); \
  } while (0)

#define ONE(NAME, INSTRUCTION, FROM, TO, BITS, NUMBER) do { \
    TO result; \
    __asm__(INSTRUCTION " %1, %0" : "=x"(result) : "x"((FROM)NUMBER(a))); \
    compare(#NAME, a, 0, 0, NAME(a), BITS(result)); \
  } while (0)

#define ORDERS(NAME) do { \
    compare(#NAME " less", a, b, 0, NAME(a, b, LESS), x < y); \
    compare(#NAME " equal", a, b, 0, NAME(a, b, EQUAL), x == y); \
    compare(#NAME " greater or equal", a, b, 0, NAME(a, b, GREATER | EQUAL), x >= y); \
    compare(#NAME " unordered", a, b, 0, NAME(a, b, UNORDERED), x != x || y != y); \
  } while (0)

static void test_64(f64 a, f64 b, f64 c) {
  double x = double_of(a), y = double_of(b), z = double_of(c);
  TWO(hippo_f64_fadd, "addsd", double, bits_of, double_of);
  TWO(hippo_f64_fsub, "subsd", double, bits_of, double_of);
  TWO(hippo_f64_fmul, "mulsd", double, bits_of, double_of);
  TWO(hippo_f64_fdiv, "divsd", double, bits_of, double_of);
  ONE(hippo_f64_sqrt, "sqrtsd", double, double, bits_of, double_of);
  ONE(hippo_f64_fptrunc, "cvtsd2ss", double, float, bits_of_float, double_of);
  compare("frem", a, b, 0, same_64(hippo_f64_frem(a, b)), same_64(bits_of(fmod(x, y))));
  compare("fma", a, b, c, same_64(hippo_f64_fma(a, b, c)), same_64(bits_of(fma(x, y, z))));
  compare("fptosi", a, 0, 0, hippo_f64_fptosi(a), _mm_cvttsd_si64(_mm_set_sd(x)));
  compare("fptosi32", a, 0, 0, hippo_f64_fptosi32(a), (uint64_t)(int64_t)_mm_cvttsd_si32(_mm_set_sd(x)));
  if (x > -9e18 && x < 1.8446744073709551e19) compare("fptoui", a, 0, 0, hippo_f64_fptoui(a), x < 0 ? (uint64_t)(int64_t)x : (uint64_t)x);
  for (int bit = 0; bit < 10; bit++)
    compare("is_fpclass", a, bit, 0, hippo_f64_is_fpclass(a, 1 << bit), class_of(fpclassify(x), signbit(x), a >> 51 & 1) == bit);
  ORDERS(hippo_f64_fcmp);
}

static void test_32(f32 a, f32 b, f32 c) {
  float x = float_of(a), y = float_of(b), z = float_of(c);
  TWO(hippo_f32_fadd, "addss", float, bits_of_float, float_of);
  TWO(hippo_f32_fsub, "subss", float, bits_of_float, float_of);
  TWO(hippo_f32_fmul, "mulss", float, bits_of_float, float_of);
  TWO(hippo_f32_fdiv, "divss", float, bits_of_float, float_of);
  ONE(hippo_f32_sqrt, "sqrtss", float, float, bits_of_float, float_of);
  ONE(hippo_f32_fpext, "cvtss2sd", float, double, bits_of, float_of);
  compare("fremf", a, b, 0, same_32(hippo_f32_frem(a, b)), same_32(bits_of_float(fmodf(x, y))));
  compare("fmaf", a, b, c, same_32(hippo_f32_fma(a, b, c)), same_32(bits_of_float(fmaf(x, y, z))));
  compare("fptosi of a float", a, 0, 0, hippo_f32_fptosi(a), _mm_cvttss_si64(_mm_set_ss(x)));
  compare("fptosi32 of a float", a, 0, 0, hippo_f32_fptosi32(a), (uint64_t)(int64_t)_mm_cvttss_si32(_mm_set_ss(x)));
  for (int bit = 0; bit < 10; bit++)
    compare("is_fpclass of a float", a, bit, 0, hippo_f32_is_fpclass(a, 1 << bit), class_of(fpclassify(x), signbit(x), a >> 22 & 1) == bit);
  ORDERS(hippo_f32_fcmp);
}

static void test_integer(uint64_t number) {
  compare("sitofp", number, 0, 0, hippo_f64_sitofp(number), bits_of((double)(int64_t)number));
  compare("uitofp", number, 0, 0, hippo_f64_uitofp(number), bits_of((double)number));
  compare("sitofp to a float", number, 0, 0, hippo_f32_sitofp(number), bits_of_float((float)(int64_t)number));
  compare("uitofp to a float", number, 0, 0, hippo_f32_uitofp(number), bits_of_float((float)number));
}

int main(int count, char **words) {
  if (count != 3) return 2;
  state = strtoull(words[2], NULL, 10) * 2 + 1;
  for (long left = strtol(words[1], NULL, 10); left; left--) {
    test_64(operand_64(), operand_64(), operand_64());
    test_32(operand_32(), operand_32(), operand_32());
    test_integer(draw() >> draw() % 64);
  }
  printf("%ld differ\n", wrong);
  return wrong != 0;
}

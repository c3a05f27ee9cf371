// Floating-point arithmetic in integers, with the results of x86-64 to the last bit. tools/lower calls these functions in place of LLVM's
// instructions and intrinsics, by whose names they are called. An integer of an argument or a result has 64 bits.
#include "float_bits.h"
#include "floats.h"

static struct number finite_sum(struct number a, struct number b) {
  if (a.exponent < b.exponent) {
    struct number kept = a;
    a = b, b = kept;
  }
  a.digits >>= 1, a.exponent++;
  uint64_t other = shifted_down(b.digits, a.exponent - b.exponent);
  if (a.negative == b.negative)
    a.digits += other;
  else if (a.digits >= other)
    a.digits -= other;
  else
    a.digits = other - a.digits, a.negative = b.negative;
  return a.digits ? normalized(a.negative, a.exponent, a.digits) : zero(false);
}

INLINE struct number sum(struct number a, struct number b) {
  if (a.kind == NO_NUMBER) return a;
  if (b.kind == NO_NUMBER) return b;
  if (a.kind == INFINITE) return b.kind == INFINITE && a.negative != b.negative ? invalid() : a;
  if (b.kind == INFINITE) return b;
  if (a.kind == ZERO && b.kind == ZERO) return zero(a.negative && b.negative);
  if (a.kind == ZERO) return b;
  return b.kind == ZERO ? a : finite_sum(a, b);
}

INLINE struct number opposite(struct number a) {
  if (a.kind != NO_NUMBER) a.negative = !a.negative;
  return a;
}

INLINE struct number product(struct number a, struct number b) {
  bool negative = a.negative != b.negative;
  if (a.kind == NO_NUMBER) return a;
  if (b.kind == NO_NUMBER) return b;
  if (a.kind == INFINITE || b.kind == INFINITE) {
    if (a.kind == ZERO || b.kind == ZERO) return invalid();
    return (struct number){INFINITE, negative, 0, 0};
  }
  if (a.kind == ZERO || b.kind == ZERO) return zero(negative);
  unsigned __int128 whole = (unsigned __int128)a.digits * b.digits;
  uint64_t high = (uint64_t)(whole >> 64) | ((uint64_t)whole != 0);
  return normalized(negative, a.exponent + b.exponent + 64, high);
}

// Digits that are divided: 11 more digits of the quotient in each step, since the divisor has 53.
enum { STEP = 11 };

INLINE struct number finite_quotient(struct number a, struct number b) {
  uint64_t divisor = b.digits >> STEP, rest = a.digits >> STEP, found = rest >= divisor;
  if (found) rest -= divisor;
  for (int digits = 0; digits < 55; digits += STEP) {
    rest <<= STEP;
    found = found << STEP | rest / divisor;
    rest %= divisor;
  }
  return normalized(a.negative != b.negative, a.exponent - b.exponent - 63, found << 8 | (rest != 0));
}

INLINE struct number quotient(struct number a, struct number b) {
  bool negative = a.negative != b.negative;
  if (a.kind == NO_NUMBER) return a;
  if (b.kind == NO_NUMBER) return b;
  if (a.kind == b.kind && (a.kind == ZERO || a.kind == INFINITE)) return invalid();
  if (a.kind == INFINITE || b.kind == ZERO) return (struct number){INFINITE, negative, 0, 0};
  if (a.kind == ZERO || b.kind == INFINITE) return zero(negative);
  return finite_quotient(a, b);
}

// The square root of digits * 2^exponent, one digit after another.
static struct number finite_root(struct number a) {
  uint64_t digits = a.digits >> 11 << (a.exponent + 11 & 1), root = 0, rest = 0;
  int exponent = a.exponent + 11 - (a.exponent + 11 & 1);
  for (int place = 52; place > 52 - 2 * 56; place -= 2) {
    rest = rest << 2 | (place >= 0 ? digits >> place & 3 : 0);
    uint64_t trial = root << 2 | 1;
    root <<= 1;
    if (rest >= trial) rest -= trial, root |= 1;
  }
  return normalized(false, exponent / 2 - 29 - 8, root << 8 | (rest != 0));
}

INLINE struct number square_root(struct number a) {
  if (a.kind == ZERO || a.kind == NO_NUMBER) return a;
  if (a.negative) return invalid();
  return a.kind == INFINITE ? a : finite_root(a);
}

// The sum of a product, which is not rounded, and a number.
static struct number finite_fused(struct number a, struct number b, struct number c) {
  unsigned __int128 whole = (unsigned __int128)a.digits * b.digits >> 2, other = (unsigned __int128)c.digits << 62;
  int exponent = a.exponent + b.exponent + 2, apart = exponent - (c.exponent - 62);
  bool negative = a.negative != b.negative;
  unsigned __int128 *smaller = apart >= 0 ? &other : &whole;
  int count = apart >= 0 ? apart : -apart;
  if (apart < 0) exponent -= apart;
  if (count > 127)
    *smaller = 1;
  else if (count)
    *smaller = *smaller >> count | (*smaller << (128 - count) != 0);
  if (negative == c.negative)
    whole += other;
  else if (whole >= other)
    whole -= other;
  else
    whole = other - whole, negative = c.negative;
  if (!whole) return zero(false);
  if (!(whole >> 64)) return normalized(negative, exponent, (uint64_t)whole);
  struct number high = normalized(negative, exponent + 64, (uint64_t)(whole >> 64));
  int moved = exponent + 64 - high.exponent;
  if (moved) high.digits |= (uint64_t)whole >> (64 - moved);
  high.digits |= (uint64_t)whole << moved != 0;
  return high;
}

INLINE struct number fused(struct number a, struct number b, struct number c) {
  if (a.kind == FINITE && b.kind == FINITE && c.kind == FINITE) return finite_fused(a, b, c);
  if (a.kind == NO_NUMBER) return a;
  if (b.kind == NO_NUMBER) return b;
  if (c.kind == NO_NUMBER) return c;
  if (c.kind == ZERO && a.kind == FINITE && b.kind == FINITE) return product(a, b);
  return sum(product(a, b), c);
}

// The rest of a / b, and the lowest digits of the quotient, which is cut.
static struct number finite_rest(struct number a, struct number b, uint64_t *cut) {
  uint64_t divisor = b.digits >> STEP, rest = a.digits >> STEP;
  int places = a.exponent - b.exponent;
  *cut = 0;
  if (places < 0) return a;
  *cut = rest / divisor, rest %= divisor;
  for (int step; places && rest; places -= step) {
    step = places < STEP ? places : STEP;
    rest <<= step;
    *cut = *cut << step | rest / divisor;
    rest %= divisor;
  }
  *cut = places < 64 ? *cut << places : 0;
  return rest ? normalized(a.negative, b.exponent + STEP, rest) : zero(a.negative);
}

static struct number rest_of(struct number a, struct number b) {
  uint64_t cut;
  if (a.kind == NO_NUMBER) return a;
  if (b.kind == NO_NUMBER) return b;
  if (a.kind == INFINITE || b.kind == ZERO) return invalid();
  return a.kind == ZERO || b.kind == INFINITE ? a : finite_rest(a, b, &cut);
}

// The rest to the nearest multiple, and to the even one between two; `cut` has the lowest digits of the quotient.
struct number hippo_nearest_rest(struct number a, struct number b, uint64_t *cut) {
  *cut = 0;
  if (a.kind != FINITE || b.kind != FINITE) return rest_of(a, b);
  struct number rest = finite_rest(a, b, cut), twice = rest;
  twice.exponent++;
  if (rest.kind == ZERO || twice.exponent < b.exponent) return rest;
  bool is_more = twice.exponent > b.exponent || twice.digits > b.digits;
  bool is_half = twice.exponent == b.exponent && twice.digits == b.digits;
  if (!is_more && !(is_half && (*cut & 1))) return rest;
  ++*cut;
  b.negative = !rest.negative;
  return finite_sum(rest, b);
}

enum order { LESS = 1, EQUAL = 2, GREATER = 4, UNORDERED = 8 };

INLINE enum order order_of(uint64_t a, uint64_t b, uint64_t sign, uint64_t infinity) {
  uint64_t size_a = a & (sign - 1), size_b = b & (sign - 1);
  if (size_a > infinity || size_b > infinity) return UNORDERED;
  int64_t one = a & sign ? -(int64_t)size_a : (int64_t)size_a, two = b & sign ? -(int64_t)size_b : (int64_t)size_b;
  return one < two ? LESS : one > two ? GREATER : EQUAL;
}

static const f64 infinity_64 = (f64)2047 << 52;
static const f32 infinity_32 = (f32)255 << 23;

// The integer toward zero in 64 bits with a sign, or what x86-64 gives if it does not fit.
INLINE uint64_t to_signed(struct number a) {
  if (a.kind == ZERO) return 0;
  if (a.kind != FINITE || a.exponent >= 0) return highest_bit;
  uint64_t size = a.exponent < -63 ? 0 : a.digits >> -a.exponent;
  return a.negative ? -size : size;
}

// The same without a sign; a negative number gives that of its 64 bits.
INLINE uint64_t to_unsigned(struct number a) {
  if (a.kind == FINITE && !a.negative && !a.exponent) return a.digits;
  return to_signed(a);
}

// The integer in 32 bits, or what x86-64 gives if it does not fit.
INLINE int32_t fitting(uint64_t number) { return (int64_t)number == (int32_t)number ? (int32_t)number : INT32_MIN; }

INLINE struct number from_integer(uint64_t number, bool negative) {
  return number ? normalized(negative, 0, number) : zero(false);
}

INLINE struct number from_signed(uint64_t number) {
  bool negative = number >> 63;
  return from_integer(negative ? -number : number, negative);
}

f64 hippo_f64_fadd(f64 a, f64 b) { return to_64(sum(from_64(a), from_64(b))); }
f64 hippo_f64_fsub(f64 a, f64 b) { return to_64(sum(from_64(a), opposite(from_64(b)))); }
f64 hippo_f64_fmul(f64 a, f64 b) { return to_64(product(from_64(a), from_64(b))); }
f64 hippo_f64_fdiv(f64 a, f64 b) { return to_64(quotient(from_64(a), from_64(b))); }
f64 hippo_f64_frem(f64 a, f64 b) { return to_64(rest_of(from_64(a), from_64(b))); }
f64 hippo_f64_sqrt(f64 a) { return to_64(square_root(from_64(a))); }
f64 hippo_f64_fma(f64 a, f64 b, f64 c) { return to_64(fused(from_64(a), from_64(b), from_64(c))); }
f64 hippo_f64_fmuladd(f64 a, f64 b, f64 c) { return hippo_f64_fadd(hippo_f64_fmul(a, b), c); }
bool hippo_f64_fcmp(f64 a, f64 b, int wanted) { return (order_of(a, b, highest_bit, infinity_64) & wanted) != 0; }
uint64_t hippo_f64_fptosi(f64 a) { return to_signed(from_64(a)); }
uint64_t hippo_f64_fptoui(f64 a) { return to_unsigned(from_64(a)); }
int32_t hippo_f64_fptosi32(f64 a) { return fitting(to_signed(from_64(a))); }
f64 hippo_f64_sitofp(uint64_t number) { return to_64(from_signed(number)); }
f64 hippo_f64_uitofp(uint64_t number) { return to_64(from_integer(number, false)); }
f64 hippo_f32_fpext(f32 a) { return to_64(from_32(a)); }

f32 hippo_f32_fadd(f32 a, f32 b) { return to_32(sum(from_32(a), from_32(b))); }
f32 hippo_f32_fsub(f32 a, f32 b) { return to_32(sum(from_32(a), opposite(from_32(b)))); }
f32 hippo_f32_fmul(f32 a, f32 b) { return to_32(product(from_32(a), from_32(b))); }
f32 hippo_f32_fdiv(f32 a, f32 b) { return to_32(quotient(from_32(a), from_32(b))); }
f32 hippo_f32_frem(f32 a, f32 b) { return to_32(rest_of(from_32(a), from_32(b))); }
f32 hippo_f32_sqrt(f32 a) { return to_32(square_root(from_32(a))); }
f32 hippo_f32_fma(f32 a, f32 b, f32 c) { return to_32(fused(from_32(a), from_32(b), from_32(c))); }
f32 hippo_f32_fmuladd(f32 a, f32 b, f32 c) { return hippo_f32_fadd(hippo_f32_fmul(a, b), c); }
bool hippo_f32_fcmp(f32 a, f32 b, int wanted) { return (order_of(a, b, (uint64_t)1 << 31, infinity_32) & wanted) != 0; }
uint64_t hippo_f32_fptosi(f32 a) { return to_signed(from_32(a)); }
uint64_t hippo_f32_fptoui(f32 a) { return to_unsigned(from_32(a)); }
int32_t hippo_f32_fptosi32(f32 a) { return fitting(to_signed(from_32(a))); }
f32 hippo_f32_sitofp(uint64_t number) { return to_32(from_signed(number)); }
f32 hippo_f32_uitofp(uint64_t number) { return to_32(from_integer(number, false)); }
f32 hippo_f64_fptrunc(f64 a) { return to_32(from_64(a)); }

// C's fmin and fmax: the other number if one is none, and the second one of two equal ones.
f64 hippo_f64_minnum(f64 a, f64 b) { return hippo_f64_fcmp(a, a, UNORDERED) || hippo_f64_fcmp(b, a, LESS) ? b : a; }
f64 hippo_f64_maxnum(f64 a, f64 b) { return hippo_f64_fcmp(a, a, UNORDERED) || hippo_f64_fcmp(b, a, GREATER) ? b : a; }
f32 hippo_f32_minnum(f32 a, f32 b) { return hippo_f32_fcmp(a, a, UNORDERED) || hippo_f32_fcmp(b, a, LESS) ? b : a; }
f32 hippo_f32_maxnum(f32 a, f32 b) { return hippo_f32_fcmp(a, a, UNORDERED) || hippo_f32_fcmp(b, a, GREATER) ? b : a; }

// The bits of LLVM's classes: signaling and quiet numbers that are none, then from negative to positive infinity.
INLINE bool is_class(struct number a, bool is_quiet, bool is_subnormal, int wanted) {
  if (a.kind == NO_NUMBER) return wanted >> is_quiet & 1;
  int place = a.kind == ZERO ? 0 : a.kind == INFINITE ? 3 : is_subnormal ? 1 : 2;
  return wanted >> (a.negative ? 5 - place : 6 + place) & 1;
}

bool hippo_f64_is_fpclass(f64 a, int wanted) { return is_class(from_64(a), a >> 51 & 1, !(a >> 52 & 2047), wanted); }
bool hippo_f32_is_fpclass(f32 a, int wanted) { return is_class(from_32(a), a >> 22 & 1, !(a >> 23 & 255), wanted); }

// Roundings of floating-point numbers to integers, in integers. tools/lower calls these functions in place of LLVM's intrinsics.
#include "floats.h"

enum way { TO_ZERO, DOWN, UP, HALF_AWAY, HALF_TO_EVEN };

static const f64 sign_bit = (f64)1 << 63, one = (f64)BIAS_64 << 52, quiet_bit = (f64)1 << 51;

// Whether a number goes away from zero: by its sign, and by whether its fraction is below (-1), at (0) or above (1) one half.
static bool goes_away(enum way way, bool negative, int to_half, bool is_odd) {
  switch (way) {
  case TO_ZERO: return false;
  case DOWN: return negative;
  case UP: return !negative;
  case HALF_AWAY: return to_half >= 0;
  default: return to_half > 0 || (to_half == 0 && is_odd);
  }
}

static f64 to_whole(f64 a, enum way way) {
  int field = a >> 52 & 2047;
  f64 sign = a & sign_bit, size = a & ~sign_bit;
  if (size > (f64)2047 << 52) return a | quiet_bit;
  if (field >= BIAS_64 + 52 || !size) return a;
  if (field < BIAS_64) {
    f64 half = (f64)(BIAS_64 - 1) << 52;
    return goes_away(way, sign != 0, size < half ? -1 : size > half, false) ? sign | one : sign;
  }
  f64 unit = (f64)1 << (BIAS_64 + 52 - field), fraction = a & (unit - 1), half = unit >> 1;
  if (!fraction) return a;
  bool away = goes_away(way, sign != 0, fraction < half ? -1 : fraction > half, (a & unit) != 0);
  return (a & ~(unit - 1)) + (away ? unit : 0);
}

static f32 to_whole_32(f32 a, enum way way) { return hippo_f64_fptrunc(to_whole(hippo_f32_fpext(a), way)); }

f64 hippo_f64_floor(f64 a) { return to_whole(a, DOWN); }
f64 hippo_f64_ceil(f64 a) { return to_whole(a, UP); }
f64 hippo_f64_trunc(f64 a) { return to_whole(a, TO_ZERO); }
f64 hippo_f64_round(f64 a) { return to_whole(a, HALF_AWAY); }
f64 hippo_f64_roundeven(f64 a) { return to_whole(a, HALF_TO_EVEN); }
f64 hippo_f64_rint(f64 a) { return to_whole(a, HALF_TO_EVEN); }
f64 hippo_f64_nearbyint(f64 a) { return to_whole(a, HALF_TO_EVEN); }
uint64_t hippo_f64_lround(f64 a) { return hippo_f64_fptosi(to_whole(a, HALF_AWAY)); }
uint64_t hippo_f64_llround(f64 a) { return hippo_f64_fptosi(to_whole(a, HALF_AWAY)); }
uint64_t hippo_f64_lrint(f64 a) { return hippo_f64_fptosi(to_whole(a, HALF_TO_EVEN)); }
uint64_t hippo_f64_llrint(f64 a) { return hippo_f64_fptosi(to_whole(a, HALF_TO_EVEN)); }

f32 hippo_f32_floor(f32 a) { return to_whole_32(a, DOWN); }
f32 hippo_f32_ceil(f32 a) { return to_whole_32(a, UP); }
f32 hippo_f32_trunc(f32 a) { return to_whole_32(a, TO_ZERO); }
f32 hippo_f32_round(f32 a) { return to_whole_32(a, HALF_AWAY); }
f32 hippo_f32_roundeven(f32 a) { return to_whole_32(a, HALF_TO_EVEN); }
f32 hippo_f32_rint(f32 a) { return to_whole_32(a, HALF_TO_EVEN); }
f32 hippo_f32_nearbyint(f32 a) { return to_whole_32(a, HALF_TO_EVEN); }
uint64_t hippo_f32_lround(f32 a) { return hippo_f64_lround(hippo_f32_fpext(a)); }
uint64_t hippo_f32_llround(f32 a) { return hippo_f64_lround(hippo_f32_fpext(a)); }
uint64_t hippo_f32_lrint(f32 a) { return hippo_f64_lrint(hippo_f32_fpext(a)); }
uint64_t hippo_f32_llrint(f32 a) { return hippo_f64_lrint(hippo_f32_fpext(a)); }

// Functions on the bits of floating-point numbers that other files of the runtime call.
#ifndef HIPPO_FLOATS_H
#define HIPPO_FLOATS_H

#include "float_bits.h"

f64 hippo_f64_fsub(f64 a, f64 b);
f64 hippo_f64_frem(f64 a, f64 b);
f64 hippo_f64_sqrt(f64 a);
f64 hippo_f64_fma(f64 a, f64 b, f64 c);
f64 hippo_f64_minnum(f64 a, f64 b);
f64 hippo_f64_maxnum(f64 a, f64 b);
f64 hippo_f64_floor(f64 a);
f64 hippo_f64_ceil(f64 a);
f64 hippo_f64_trunc(f64 a);
f64 hippo_f64_round(f64 a);
f64 hippo_f64_rint(f64 a);
uint64_t hippo_f64_lround(f64 a);
uint64_t hippo_f64_lrint(f64 a);
uint64_t hippo_f64_fptosi(f64 a);
f32 hippo_f32_fsub(f32 a, f32 b);
f32 hippo_f32_frem(f32 a, f32 b);
f32 hippo_f32_sqrt(f32 a);
f32 hippo_f32_fma(f32 a, f32 b, f32 c);
f64 hippo_f32_fpext(f32 a);
f32 hippo_f64_fptrunc(f64 a);

// The rest of a / b to the nearest multiple of b, and the lowest digits of the quotient.
struct number hippo_nearest_rest(struct number a, struct number b, uint64_t *quotient);

#endif

// For the drivers: pseudo-random numbers.
#ifndef DRAW_H
#define DRAW_H

#include <hippo.h>
#include <stdint.h>

#ifdef EXPLORED
// In a search the input gives the number of rounds, and each number that is drawn.
static inline unsigned draw(unsigned limit) { return limit ? (unsigned)((uint64_t)read_i64() % limit) : 0; }
#define ROUNDS(most) ((int)((uint64_t)read_i64() % ((most) + 1)))
#else
#define ROUNDS(most) (most)

// The next number below the limit (xorshift).
static inline unsigned draw(unsigned limit) {
  static uint64_t drawn = 88172645463325252u;
  drawn ^= drawn << 13;
  drawn ^= drawn >> 7;
  drawn ^= drawn << 17;
  return (unsigned)(drawn >> 11) % limit;
}
#endif

#endif

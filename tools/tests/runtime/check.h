// For the test programs of the runtime: pseudo-random numbers, and a sum of all results of one function.
#ifndef CHECK_H
#define CHECK_H

#include <hippo.h>
#include <stdint.h>

static uint64_t drawn = 88172645463325252u;

// The next number below the limit (xorshift).
static inline unsigned draw(unsigned limit) {
  drawn ^= drawn << 13;
  drawn ^= drawn >> 7;
  drawn ^= drawn << 17;
  return (unsigned)(drawn >> 11) % limit;
}

static uint64_t sum;

// Takes a result into the sum.
static inline void note(long long result) { sum = (sum ^ (uint64_t)result) * 0x100000001b3u; }

// Prints the sum of what was noted since it was printed last.
static inline void print_sum(void) {
  print_i64((long long)(sum >> 1));
  sum = 0;
}

// 1, 0 or -1: the sign alone of a comparison is defined.
static inline int sign(int result) { return (result > 0) - (result < 0); }

// Notes all bytes of a block.
static inline void note_bytes(const void *from, size_t size) {
  for (size_t i = 0; i < size; i++) note(((const unsigned char *)from)[i]);
}

#endif

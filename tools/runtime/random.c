// Pseudo-random numbers. rand and random are the additive feedback generator of the C libraries on Linux: a word is the sum
// modulo 2^32 of the words 3 and 31 places before it, the first 310 words after the seeding are dropped, and the result is a
// word without its lowest bit. So a program gets the same numbers here as natively.
#include <stdint.h>
#include <stdlib.h>

enum { DEGREE = 31, SEPARATION = 3, DROPPED = 310, MODULUS = 2147483647 };

static uint32_t words[DEGREE]; // the last 31 words; the oldest is at `oldest`
static int oldest, seeded;

static uint32_t next_word(void) {
  uint32_t word = words[oldest] + words[(oldest + DEGREE - SEPARATION) % DEGREE];
  words[oldest] = word;
  oldest = (oldest + 1) % DEGREE;
  return word;
}

// The words of a seed are those of the minimal standard generator (Park and Miller).
void srandom(unsigned seed) {
  int64_t word = (int32_t)(seed ? seed : 1);
  for (int i = 0; i < DEGREE; i++) {
    words[i] = (uint32_t)word;
    word = word * 16807 % MODULUS;
    if (word < 0) word += MODULUS;
  }
  oldest = SEPARATION;
  seeded = 1;
  for (int i = 0; i < DROPPED; i++) next_word();
}

long random(void) {
  if (!seeded) srandom(1);
  return next_word() >> 1;
}

void srand(unsigned seed) { srandom(seed); }

int rand(void) { return (int)random(); }

// POSIX's example generator, three steps of it a number: 11, 10 and 10 bits.
int rand_r(unsigned *seed) {
  unsigned next = *seed, bits = 0;
  for (int step = 0; step < 3; step++) {
    next = next * 1103515245 + 12345;
    unsigned kept = step == 0 ? next / 65536 % 2048 : next / 65536 % 1024;
    bits = step == 0 ? kept : (bits << 10) ^ kept;
  }
  *seed = next;
  return (int)bits;
}

// The generators of 48 bits, as POSIX gives them.
static uint64_t state48;
static const uint64_t MULTIPLIER = 0x5deece66d, ADDEND = 11, MASK48 = ((uint64_t)1 << 48) - 1;

static uint64_t next48(uint64_t state) { return (state * MULTIPLIER + ADDEND) & MASK48; }

void srand48(long seed) { state48 = (uint64_t)(uint32_t)seed << 16 | 0x330e; }

long lrand48(void) {
  state48 = next48(state48);
  return (long)(state48 >> 17);
}

long mrand48(void) {
  state48 = next48(state48);
  return (int32_t)(state48 >> 16);
}

static uint64_t next_of(unsigned short words48[3]) {
  uint64_t state = next48(words48[0] | (uint64_t)words48[1] << 16 | (uint64_t)words48[2] << 32);
  words48[0] = (unsigned short)state;
  words48[1] = (unsigned short)(state >> 16);
  words48[2] = (unsigned short)(state >> 32);
  return state;
}

long nrand48(unsigned short words48[3]) { return (long)(next_of(words48) >> 17); }

long jrand48(unsigned short words48[3]) { return (int32_t)(next_of(words48) >> 16); }

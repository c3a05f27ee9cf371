// xxHash: sums of a block in persistent memory, at once and piece by piece.
#include "draw.h"
#define XXH_STATIC_LINKING_ONLY
#include "xxhash.h"

PERSISTENT static unsigned char block[5000];
PERSISTENT static XXH64_state_t state;

int main(void) {
  for (unsigned i = 0; i < sizeof block; i++) block[i] = (unsigned char)draw(256);
  for (unsigned size = 0; size < sizeof block; size = size * 2 + 1) {
    print_i64((long long)XXH32(block, size, 7));
    print_i64((long long)XXH64(block, size, 7));
  }
  XXH64_reset(&state, 3);
  for (unsigned at = 0; at + 200 < sizeof block;) {
    unsigned size = draw(200);
    XXH64_update(&state, block + at, size);
    at += size;
  }
  print_i64((long long)XXH64_digest(&state));
  return 0;
}

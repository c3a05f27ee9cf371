#include "check.h"
#include <stdlib.h>

int main(void) {
  note(rand());
  for (unsigned i = 0; i < 12; i++) {
    unsigned seed = i < 4 ? i : i < 8 ? 0u - i : draw(1u << 31) * 2;
    srand(seed);
    for (int k = 0; k < 50; k++) note(rand());
    srandom(seed);
    for (int k = 0; k < 50; k++) note(random());
    for (int k = 0; k < 50; k++) note(rand_r(&seed));
    srand48((long)seed);
    for (int k = 0; k < 50; k++) note(lrand48() ^ mrand48());
    unsigned short state[3] = {1, 2, (unsigned short)seed};
    for (int k = 0; k < 50; k++) note(nrand48(state) ^ jrand48(state));
    print_sum();
  }
  return 0;
}

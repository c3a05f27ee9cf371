// An acknowledged write is lost: the recovery cannot know what was acknowledged unless hippo_prints() says it.
#include <hippo.h>

PERSISTENT long slot[64];
PERSISTENT long n;

static void acknowledge(long number) { print_i64(number); }

int main(void) {
  if (n > 64 || n < hippo_prints())
    __builtin_trap();
  for (long i = n; i < 8; i++) {
    slot[i] = i * i;
    pmem_persist(&slot[i], sizeof slot[i]);
    n = i + 1;
    pmem_flush(&n, sizeof n); // bug: no fence before the acknowledgement
    acknowledge(i);
  }
  pmem_drain();
  return 0;
}

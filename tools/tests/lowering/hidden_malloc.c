// Functions that are hidden or static in C do not take the place of the C library's in a rebuilt program.
#include <hippo.h>

static _Alignas(16) char room[256];
static unsigned long used;

__attribute__((visibility("hidden"))) void *malloc(unsigned long size) {
  if (size > sizeof room - used) {
    __builtin_trap();
  }
  void *found = room + used;
  used += (size + 15) & ~15ul;
  return found;
}

__attribute__((visibility("hidden"))) void free(void *block) { (void)block; }
static int fwrite(int x) { return x * 7; }
static long long write(long long x) { return x - 1; }

int main(void) {
  for (int i = 0; i < 6; i++) {
    char *block = malloc(20);
    block[i] = (char)i;
    print_i64(block - room + fwrite(i) + write(block[i]));
    free(block);
  }
  return 0;
}

// Static functions with names that hippo knows are the program's own.
#undef _GNU_SOURCE
#include <immintrin.h>
void print_i64(long long number);
static __attribute__((section(".pm"), used)) long long data[16];
static void pmem_persist(long long *from, int count) {
  for (int i = 0; i < count; i += 8) {
    _mm_clwb(&from[i]);
  }
  _mm_sfence();
}
int main(void) {
  for (int i = 0; i < 16; i++) data[i] = i * i;
  pmem_persist(data, 16);
  print_i64(data[15]);
  return 0;
}

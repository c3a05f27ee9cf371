// Flushes and fences as PMDK and Linux spell them, barriers of the compiler, non-temporal stores, requests to Valgrind.
// options: --non-temporal
#include <hippo.h>

PERSISTENT static _Alignas(64) long long data[32];
static void clwb(const void *p) { __asm__ volatile(".byte 0x66; xsaveopt %0" : "+m"(*(volatile char *)p)); }
static void clflushopt(const void *p) { __asm__ volatile(".byte 0x66; clflush %0" : "+m"(*(volatile char *)p)); }
static void plain(volatile void *p) { __asm__ volatile("clwb (%0)" : : "r"(p) : "memory"); }
static void named(volatile void *p) { __asm__ volatile("clflushopt %0" : "+m"(*(volatile char *)p)); }
static void old(volatile void *p) { __asm__ volatile("clflush %0" : : "m"(*(volatile char *)p)); }
static void fence(void) { __asm__ volatile("sfence" ::: "memory"); }
#define barrier() __asm__ volatile("" ::: "memory")

// A request to Valgrind, by the instructions that Valgrind recognises. Without Valgrind the answer is the default.
static unsigned long request(unsigned long number, const void *at, unsigned long size, unsigned long otherwise) {
  volatile unsigned long words[6] = {number, (unsigned long)at, size};
  volatile unsigned long answer;
  __asm__ volatile("rolq $3,  %%rdi ; rolq $13, %%rdi\n\trolq $61, %%rdi ; rolq $51, %%rdi\n\txchgq %%rbx,%%rbx"
                   : "=d"(answer) : "a"(&words[0]), "0"(otherwise) : "cc", "memory");
  return answer;
}

int main(void) {
  print_i64((long long)request(0x1001, 0, 0, 0));
  print_i64((long long)request(0x50430008, &data[3], 8, 77));
  data[0] = 1; clwb(&data[0]); fence();
  data[8] = 2; clflushopt(&data[8]); fence();
  data[9] = 3; barrier(); named(&data[9]); __asm__ volatile("mfence" : : : "memory");
  data[16] = 4; old(&data[16]); fence();
  data[1] = 4; __asm__ __volatile__("rep; nop" ::: "memory"); __asm__ volatile("pause\n\t"); old(&data[1]); fence();
  if (read_i64() == 99) plain(&data[17]);
  _mm_stream_si64(&data[24], 5); fence();
  _mm_stream_si32((int *)&data[25], 6); _mm_sfence();
  long long sum = 0;
  for (int i = 0; i < 32; i++) sum = sum * 3 + data[i];
  print_i64(sum);
  return 0;
}

"""What stands before the functions of a random program."""

# `touch` may change what its argument points to, as far as clang knows.
PRELUDE = r"""#include "hippo.h"
#include <math.h>
#include <setjmp.h>
#include <stdarg.h>
#include <stddef.h>
#include <stdint.h>
#include <stdio.h>
#include <stdlib.h>
#include <string.h>
struct pair { int first; long second; };
struct both { double x; long n; };
struct two { double x, y; char c; };
void *pmem_memcpy(void *to, const void *from, size_t size, unsigned flags);
void *pmem_memmove(void *to, const void *from, size_t size, unsigned flags);
void *pmem_memset(void *to, int byte, size_t size, unsigned flags);
void *pmem_memcpy_nodrain(void *to, const void *from, size_t size);
void *pmem_memmove_nodrain(void *to, const void *from, size_t size);
void *pmem_memset_nodrain(void *to, int byte, size_t size);
void *pmem_memcpy_persist(void *to, const void *from, size_t size);
void *pmem_memmove_persist(void *to, const void *from, size_t size);
void *pmem_memset_persist(void *to, int byte, size_t size);
#ifdef NATIVE
#define _mm_clwb(p) ((void)(p))
#define _mm_clflushopt(p) ((void)(p))
#define ASM_FLUSH(text, p) ((void)(p))
#else
#define ASM_FLUSH(text, p) __asm__ volatile(text : "+m"(*(volatile char *)(p)) : : "memory")
#endif
long zero;
__attribute__((noinline)) void touch(void *p) { memset(p, 1, (size_t)zero); }
__attribute__((noinline)) void *same(void *p) { return zero ? (void *)&zero : p; }
static uint64_t sum = 14695981039346656037ull;
static void mix(uint64_t n) { sum = (sum ^ n) * 1099511628211ull; sum ^= sum >> 29; }
static void mix_bytes(const void *p, size_t size) { for (const unsigned char *b = p; size--; b++) mix(*b); }
static uint64_t rounded;
static void note_float(double x) {
  uint64_t n = 1;
  if (x == x) memcpy(&n, &x, sizeof n);
  rounded += (n ^ n >> 29) * 11400714819323198485ull;
}
static unsigned char room[320];
static const void *fresh(uint32_t n) {
  for (size_t i = 0; i < sizeof room; i++) room[i] = (unsigned char)((n = n * 1664525u + 1013904223u) >> 24 | 1);
  return room;
}
"""

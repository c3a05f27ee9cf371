// The external functions of hippo for a program that is built for the processor: numbers are read from standard input
// and printed to standard output, and pm_assert checks nothing. A program that links with libpmem leaves out the
// last three.
#include "hippo.h"
#include <stdint.h>
#include <stdio.h>
#include <stdlib.h>

long long read_i64(void) {
  long long number;
  if (scanf("%lld", &number) != 1) {
    fputs("no number is left to be read\n", stderr);
    exit(1);
  }
  return number;
}

void print_i64(long long number) { printf("%lld\n", number); }

void pm_assert(const void *from, unsigned long long size) {
  (void)from;
  (void)size;
}

void pmem_flush(const void *from, size_t size) {
  uintptr_t end = (uintptr_t)from + size;
  for (uintptr_t line = (uintptr_t)from & ~(uintptr_t)63; line < end; line += 64) {
    _mm_clflush((const void *)line);
  }
}

void pmem_drain(void) { _mm_sfence(); }

void pmem_persist(const void *from, size_t size) {
  pmem_flush(from, size);
  pmem_drain();
}

void hippo_recovered(void) {}

void hippo_op(void) {}

void hippo_assume(int condition) { (void)condition; }

long long hippo_prints(void) { return 0; }

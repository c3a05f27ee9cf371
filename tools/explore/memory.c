// hippo's memory at hippo's own addresses.
#define _GNU_SOURCE
#include <stdio.h>
#include <stdlib.h>
#include <string.h>
#include <sys/mman.h>

#include "engine.h"

u8 *initial_region;

void *reserved(u64 bytes) {
  void *at = mmap(0, bytes + 1, PROT_READ | PROT_WRITE, MAP_PRIVATE | MAP_ANONYMOUS | MAP_NORESERVE, -1, 0);
  if (at == MAP_FAILED) {
    fprintf(stderr, "engine: no memory for %llu bytes\n", (unsigned long long)bytes);
    exit(3);
  }
  return at;
}

static void map_area(u64 from, u64 size) {
  if (!size) return;
  void *at = mmap((void *)from, size, PROT_READ | PROT_WRITE,
                  MAP_PRIVATE | MAP_ANONYMOUS | MAP_NORESERVE | MAP_FIXED_NOREPLACE, -1, 0);
  if (at == (void *)from) return;
  fprintf(stderr, "engine: the address 0x%llx is not free; vm.mmap_min_addr may be above 65536\n", (unsigned long long)from);
  exit(3);
}

void map_memory(void) {
  map_area(VOLATILE_BASE, hippo_program_volatile);
  map_area(STACK_BASE, STACK_SIZE);
  map_area(REGION_BASE, hippo_program_region);
  for (u64 i = 0; i < hippo_program_initials; i++) {
    const struct initial *one = &hippo_program_initial[i];
    memcpy((void *)one->address, one->bytes, one->size);
  }
  initial_region = reserved(hippo_program_region);
  if (hippo_program_region) memcpy(initial_region, REGION, hippo_program_region);
}

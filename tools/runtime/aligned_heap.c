// Aligned memory: takes a larger block, and frees the part before the aligned place.
#include "heap.h"
#include <errno.h>
#include <stddef.h>
#include <stdint.h>
#include <stdlib.h>

static void *aligned(size_t alignment, size_t size) {
  if (alignment <= HIPPO_HEAP_UNIT) return malloc(size);
  size_t more = size + alignment + HIPPO_HEAP_SMALLEST;
  unsigned char *memory = more < size ? NULL : malloc(more);
  if (!memory || (uintptr_t)memory % alignment == 0) return memory;
  unsigned char *place = memory + HIPPO_HEAP_SMALLEST;
  return hippo_heap_cut(memory, place + -(uintptr_t)place % alignment);
}

static int is_power_of_two(size_t number) { return number && (number & (number - 1)) == 0; }

int posix_memalign(void **memory, size_t alignment, size_t size) {
  if (!is_power_of_two(alignment) || alignment % sizeof(void *)) return EINVAL;
  void *found = aligned(alignment, size);
  if (!found) return ENOMEM;
  *memory = found;
  return 0;
}

void *aligned_alloc(size_t alignment, size_t size) {
  if (is_power_of_two(alignment)) return aligned(alignment, size);
  errno = EINVAL;
  return NULL;
}

void *memalign(size_t alignment, size_t size) { return aligned_alloc(alignment, size); }

void *valloc(size_t size) { return aligned(4096, size); }

void *pvalloc(size_t size) { return aligned(4096, (size + 4095) / 4096 * 4096); }

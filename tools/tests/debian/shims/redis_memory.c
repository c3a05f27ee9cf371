// Redis's own layer over malloc, and its failed assertion.
#include <hippo.h>
#include <stdlib.h>

size_t malloc_usable_size(void *memory);

static size_t usable(void *memory) { return memory ? malloc_usable_size(memory) : 0; }

void *zmalloc(size_t size) { return malloc(size); }
void *zcalloc(size_t size) { return calloc(1, size); }
void *zrealloc(void *memory, size_t size) { return realloc(memory, size); }
void zfree(void *memory) { free(memory); }
void *ztrymalloc(size_t size) { return malloc(size); }

void *zmalloc_usable(size_t size, size_t *to) {
  void *memory = malloc(size);
  if (to) *to = usable(memory);
  return memory;
}

void *ztrymalloc_usable(size_t size, size_t *to) { return zmalloc_usable(size, to); }

void *zrealloc_usable(void *memory, size_t size, size_t *to) {
  void *moved = realloc(memory, size);
  if (to) *to = usable(moved);
  return moved;
}

void zfree_usable(void *memory, size_t *to) {
  if (to) *to = usable(memory);
  free(memory);
}

void _serverAssert(const char *condition, const char *file, int line) {
  (void)condition, (void)file;
  print_i64(-line);
  abort();
}

void _serverPanic(const char *file, int line, const char *message, ...) {
  (void)file, (void)message;
  print_i64(-line);
  abort();
}

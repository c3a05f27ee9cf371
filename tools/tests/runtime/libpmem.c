// The calls of libpmem over a pool; what is expected stands in libpmem.out.
#include "check.h"
#include <errno.h>
#include <string.h>

void *pmem_map_file(const char *path, size_t length, int flags, unsigned mode, size_t *mapped, int *is_pmem);
int pmem_unmap(void *address, size_t length);
int pmem_is_pmem(const void *address, size_t length);
int pmem_msync(const void *address, size_t length);
void *pmem_memcpy_persist(void *to, const void *from, size_t length);
void *pmem_memmove_persist(void *to, const void *from, size_t length);
void *pmem_memset_persist(void *to, int byte, size_t length);
void *pmem_memcpy_nodrain(void *to, const void *from, size_t length);
void *pmem_memcpy(void *to, const void *from, size_t length, unsigned flags);
void *pmem_memset(void *to, int byte, size_t length, unsigned flags);

enum { CREATE = 1, EXCLUSIVE = 2, NO_DRAIN = 1, NO_FLUSH = 32 };

int main(void) {
  size_t mapped = 0;
  int is_pmem = 0;
  errno = 0;
  print_i64(pmem_map_file("no.pool", 0, 0, 0, &mapped, &is_pmem) == NULL);
  print_i64(errno == ENOENT);
  char *pool = pmem_map_file("data.pool", 8192, CREATE | EXCLUSIVE, 0600, &mapped, &is_pmem);
  print_i64((long long)mapped);
  print_i64(is_pmem);
  print_i64(pmem_is_pmem(pool, 8192));
  print_i64(pmem_is_pmem(&mapped, sizeof mapped));
  print_i64(pmem_map_file("data.pool", 8192, CREATE | EXCLUSIVE, 0600, NULL, NULL) == NULL);
  print_i64(errno == EEXIST);
  print_i64(pmem_map_file("data.pool", 1 << 20, CREATE, 0600, NULL, NULL) == NULL);
  print_i64(errno == ENOSPC);
  pmem_memcpy_persist(pool + 3, "persistent", 11);
  pm_assert(pool, 64);
  pmem_memmove_persist(pool + 5, pool + 3, 11);
  pmem_memset_persist(pool + 100, 'x', 200);
  pm_assert(pool, 4096);
  pmem_memcpy_nodrain(pool + 1000, "later", 6);
  pmem_drain();
  pm_assert(pool, 4096);
  pmem_memcpy(pool + 2000, "flags", 6, NO_DRAIN);
  pmem_drain();
  pmem_memset(pool + 3000, 'y', 50, NO_FLUSH);
  print_i64(pmem_msync(pool + 3000, 50));
  pm_assert(pool, 8192);
  note_bytes(pool, 8192);
  print_sum();
  print_i64(pmem_unmap(pool, mapped));
  print_i64(pmem_map_file("data.pool", 0, 0, 0, &mapped, NULL) == pool);
  print_i64((long long)mapped);
  return 0;
}

// libpmem's calls over the pools: pmem_flush, pmem_persist and pmem_drain are hippo's own, and the others call them. A
// mapped pool is persistent memory, whose stores need a flush and a fence.
#include "hippo.h"
#include "pool.h"
#include <errno.h>
#include <fcntl.h>
#include <string.h>
#include <sys/types.h>

// The flags of pmem_map_file and of the calls that copy, by their values in <libpmem.h>.
enum { FILE_CREATE = 1, FILE_EXCLUSIVE = 2, FILE_SPARSE = 4, FILE_TEMPORARY = 8 };
enum { NO_DRAIN = 1, NO_FLUSH = 32 };

static unsigned long length_for(const struct hippo_pool *pool, size_t length, int flags) {
  return flags & FILE_CREATE ? length : pool->file->length;
}

void *pmem_map_file(const char *path, size_t length, int flags, mode_t mode, size_t *mapped, int *is_pmem) {
  (void)mode;
  if (flags & ~(FILE_CREATE | FILE_EXCLUSIVE | FILE_SPARSE) || !(flags & FILE_CREATE) != !length) {
    errno = EINVAL;
    return NULL;
  }
  struct hippo_pool *pool = hippo_pool_of_path(path);
  int open_flags = (flags & FILE_CREATE ? O_CREAT : 0) | (flags & FILE_EXCLUSIVE ? O_EXCL : 0);
  if (!pool || hippo_pool_open(pool, open_flags)) return NULL;
  if (flags & FILE_CREATE && hippo_pool_set_length(pool, length)) return NULL;
  if (!pool->file->length) {
    errno = EINVAL;
    return NULL;
  }
  if (mapped) *mapped = length_for(pool, length, flags);
  if (is_pmem) *is_pmem = 1;
  return pool->bytes;
}

int pmem_unmap(void *address, size_t length) {
  (void)address, (void)length;
  return 0;
}

int pmem_is_pmem(const void *address, size_t length) {
  const struct hippo_pool *pool = hippo_pool_with(address);
  return pool && length <= (size_t)(pool->bytes + pool->size - (const unsigned char *)address);
}

// The calls of this kind say nothing about an empty range.
int pmem_msync(const void *address, size_t length) {
  if (length) pmem_persist(address, length);
  return 0;
}

int pmem_deep_flush(const void *address, size_t length) {
  pmem_flush(address, length);
  return 0;
}

int pmem_deep_drain(const void *address, size_t length) {
  (void)address;
  if (length) pmem_drain();
  return 0;
}

int pmem_deep_persist(const void *address, size_t length) { return pmem_msync(address, length); }

int pmem_has_hw_drain(void) { return 0; }

int pmem_has_auto_flush(void) { return 0; }

const char *pmem_check_version(unsigned major, unsigned minor) {
  (void)minor;
  return major == 1 ? NULL : "libpmem major version mismatch";
}

const char *pmem_errormsg(void) { return strerror(errno); }

// Flushes and drains after the stores of a copy or a fill, as its flags say.
static void *finish(void *to, size_t length, unsigned flags) {
  if (flags & NO_FLUSH) return to;
  pmem_flush(to, length);
  if (!(flags & NO_DRAIN)) pmem_drain();
  return to;
}

void *pmem_memmove(void *to, const void *from, size_t length, unsigned flags) {
  return finish(memmove(to, from, length), length, flags);
}

void *pmem_memcpy(void *to, const void *from, size_t length, unsigned flags) {
  return finish(memcpy(to, from, length), length, flags);
}

void *pmem_memset(void *to, int byte, size_t length, unsigned flags) {
  return finish(memset(to, byte, length), length, flags);
}

void *pmem_memmove_nodrain(void *to, const void *from, size_t length) { return pmem_memmove(to, from, length, NO_DRAIN); }
void *pmem_memcpy_nodrain(void *to, const void *from, size_t length) { return pmem_memcpy(to, from, length, NO_DRAIN); }
void *pmem_memset_nodrain(void *to, int byte, size_t length) { return pmem_memset(to, byte, length, NO_DRAIN); }
void *pmem_memmove_persist(void *to, const void *from, size_t length) { return pmem_memmove(to, from, length, 0); }
void *pmem_memcpy_persist(void *to, const void *from, size_t length) { return pmem_memcpy(to, from, length, 0); }
void *pmem_memset_persist(void *to, int byte, size_t length) { return pmem_memset(to, byte, length, 0); }

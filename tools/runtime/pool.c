// Pools by their paths, and their lengths.
#include "pool.h"
#include "hippo.h"
#include <errno.h>
#include <fcntl.h>
#include <string.h>

static int names(const char *path, const char *name) {
  const char *last = strrchr(path, '/');
  return strcmp(path, name) == 0 || (last && strcmp(last + 1, name) == 0);
}

struct hippo_pool *hippo_pool_of_path(const char *path) {
  for (unsigned long i = 0; i < hippo_pool_count; i++)
    if (names(path, hippo_pools[i].name)) return &hippo_pools[i];
  errno = ENOENT;
  return NULL;
}

const struct hippo_pool *hippo_pool_with(const void *address) {
  for (unsigned long i = 0; i < hippo_pool_count; i++) {
    const struct hippo_pool *pool = &hippo_pools[i];
    if ((const unsigned char *)address >= pool->bytes && (const unsigned char *)address < pool->bytes + pool->size)
      return pool;
  }
  return NULL;
}

static void change(struct hippo_pool *pool, unsigned long length, unsigned long exists) {
  if (pool->file->length == length && pool->file->exists == exists) return;
  pool->file->length = length;
  pool->file->exists = exists;
  pmem_persist(pool->file, sizeof *pool->file);
}

int hippo_pool_set_length(struct hippo_pool *pool, unsigned long length) {
  if (length > pool->size) {
    errno = ENOSPC;
    return -1;
  }
  unsigned long old = pool->file->length;
  if (length < old) {
    memset(pool->bytes + length, 0, old - length);
    pmem_persist(pool->bytes + length, old - length);
  }
  change(pool, length, 1);
  return 0;
}

// A pool without a file is a new file for a call that may create one, and a file of zeros for any other call.
int hippo_pool_open(struct hippo_pool *pool, int flags) {
  if (pool->file->exists && flags & O_CREAT && flags & O_EXCL) {
    errno = EEXIST;
    return -1;
  }
  if (!pool->file->exists) change(pool, flags & O_CREAT ? 0 : pool->size, 1);
  return flags & O_TRUNC ? hippo_pool_set_length(pool, 0) : 0;
}

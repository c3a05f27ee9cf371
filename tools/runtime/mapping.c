// Mapped memory, for `--file-calls`: a shared mapping of a pool is the pool's bytes, so stores go to the persistent region, and
// msync makes whole pages durable. An anonymous mapping, and a private one of a pool, is a block of the heap; an anonymous one that
// cannot be written, by which a program finds free addresses, has no bytes.
#include "descriptor.h"
#include "hippo.h"
#include <errno.h>
#include <stdint.h>
#include <stdlib.h>
#include <string.h>
#include <sys/mman.h>

enum { PAGE = 4096, BLOCKS = 64, MAPPINGS = 64 };

// The shared mappings of pools: while one is left, the open file keeps its lock.
static struct {
  struct hippo_open_file *file;
  uintptr_t from, end;
} mappings[MAPPINGS];

// The mappings that are blocks of the heap.
static struct {
  void *address;
  size_t length;
} blocks[BLOCKS];

static void *failed(int number) {
  errno = number;
  return MAP_FAILED;
}

static void *block_of_heap(const unsigned char *from, size_t copied, size_t length) {
  unsigned char *block = aligned_alloc(PAGE, length);
  if (!block) return failed(ENOMEM);
  for (int i = 0; i < BLOCKS; i++)
    if (!blocks[i].address) {
      blocks[i].address = block;
      blocks[i].length = length;
      break;
    }
  memcpy(block, from, copied);
  memset(block + copied, 0, length - copied);
  return block;
}

// Flags of a mapping that say nothing about its content, and MAP_SYNC, which has a meaning for MAP_SHARED_VALIDATE alone.
enum { KNOWN = MAP_TYPE | MAP_SYNC | MAP_POPULATE | MAP_NONBLOCK | MAP_NORESERVE | MAP_LOCKED | MAP_STACK | MAP_32BIT | MAP_DENYWRITE
    | MAP_EXECUTABLE | MAP_FILE | MAP_GROWSDOWN | MAP_HUGETLB | MAP_FIXED | MAP_FIXED_NOREPLACE };

// What is wrong with a mapping of a file: its access mode, its flags or its offset; 0 if nothing is.
static int mapping_error(const struct hippo_open_file *file, int protection, int flags, off_t offset) {
  int type = flags & MAP_TYPE;
  if (type != MAP_SHARED && type != MAP_PRIVATE && type != MAP_SHARED_VALIDATE) return EINVAL;
  if (type == MAP_SHARED_VALIDATE && flags & ~KNOWN) return EOPNOTSUPP;
  if (!hippo_may_read(file)) return EACCES;
  if (type != MAP_PRIVATE && protection & PROT_WRITE && !hippo_may_write(file)) return EACCES;
  return offset < 0 || offset % PAGE ? EINVAL : 0;
}

// Addresses above all memory of a run, each given once: an access there traps.
static void *reserve(size_t length) {
  static uintptr_t next = 1ull << 45;
  if (length > 1ull << 44) return failed(ENOMEM);
  void *reserved = (void *)next;
  next += (length + PAGE - 1) / PAGE * PAGE;
  return reserved;
}

static int note_mapping(struct hippo_open_file *file, const unsigned char *from, size_t length) {
  for (int i = 0; i < MAPPINGS; i++)
    if (!mappings[i].file) {
      mappings[i].file = file;
      mappings[i].from = (uintptr_t)from;
      mappings[i].end = (uintptr_t)from + (length + PAGE - 1) / PAGE * PAGE;
      file->mappings++;
      return 1;
    }
  return 0;
}

static void *map_file(struct hippo_open_file *file, size_t length, int flags, off_t offset) {
  const struct hippo_pool *pool = file->pool;
  size_t rounded = (pool->size + PAGE - 1) / PAGE * PAGE;
  if ((size_t)offset > rounded) return failed(EINVAL);
  if ((flags & MAP_TYPE) == MAP_PRIVATE) {
    size_t left = (size_t)offset < pool->size ? pool->size - offset : 0;
    return block_of_heap(pool->bytes + offset, length < left ? length : left, length);
  }
  unsigned char *from = pool->bytes + offset;
  return length > rounded - offset || !note_mapping(file, from, length) ? failed(ENOMEM) : from;
}

void *mmap(void *address, size_t length, int protection, int flags, int descriptor, off_t offset) {
  if (length == 0 || (flags & MAP_FIXED && address)) return failed(EINVAL);
  if (flags & MAP_FIXED_NOREPLACE && address) return failed(EEXIST);
  if (flags & MAP_ANONYMOUS) {
    int type = flags & MAP_TYPE;
    if (type != MAP_SHARED && type != MAP_PRIVATE) return failed(EINVAL);
    return protection & PROT_WRITE ? block_of_heap(NULL, 0, length) : reserve(length);
  }
  struct hippo_open_file *file = hippo_open_file(descriptor);
  if (!file) return MAP_FAILED;
  int error = mapping_error(file, protection, flags, offset);
  return error ? failed(error) : map_file(file, length, flags, offset);
}

void *mmap64(void *address, size_t length, int protection, int flags, int descriptor, off64_t offset) {
  return mmap(address, length, protection, flags, descriptor, offset);
}

// Takes a range from a mapping of a pool; a part in the middle stays.
static void unmap(int i, uintptr_t from, uintptr_t end) {
  if (!mappings[i].file || from >= mappings[i].end || end <= mappings[i].from) return;
  if (from <= mappings[i].from && end >= mappings[i].end) {
    hippo_end_mapping(mappings[i].file);
    mappings[i].file = NULL;
  } else if (from <= mappings[i].from) {
    mappings[i].from = end;
  } else if (end >= mappings[i].end) {
    mappings[i].end = from;
  }
}

// Frees a whole block of the heap. A part of a block stays, and so do the bytes of a pool.
int munmap(void *address, size_t length) {
  uintptr_t from = (uintptr_t)address, end = from + (length + PAGE - 1) / PAGE * PAGE;
  for (int i = 0; i < MAPPINGS; i++) unmap(i, from, end);
  for (int i = 0; i < BLOCKS; i++)
    if (blocks[i].address == address && blocks[i].length == length && address) {
      free(address);
      blocks[i].address = NULL;
    }
  return 0;
}

// A mapping keeps its length: no longer one is found.
void *mremap(void *address, size_t length, size_t new_length, int flags, ...) {
  (void)flags;
  return (uintptr_t)address % PAGE || !new_length ? failed(EINVAL) : new_length == length ? address : failed(ENOMEM);
}

int msync(void *address, size_t length, int flags) {
  const struct hippo_pool *pool = hippo_pool_with(address);
  if ((uintptr_t)address % PAGE || flags & ~(MS_SYNC | MS_ASYNC | MS_INVALIDATE) || (flags & MS_SYNC && flags & MS_ASYNC)) {
    errno = EINVAL;
    return -1;
  }
  if (!pool || !length || !(flags & MS_SYNC)) return 0;
  size_t left = pool->bytes + pool->size - (unsigned char *)address, pages = (length + PAGE - 1) / PAGE * PAGE;
  pmem_persist(address, pages < left ? pages : left);
  return 0;
}

int mprotect(void *address, size_t length, int protection) {
  (void)address, (void)length, (void)protection;
  return 0;
}

int madvise(void *address, size_t length, int advice) {
  (void)address, (void)length, (void)advice;
  return 0;
}

int posix_madvise(void *address, size_t length, int advice) { return madvise(address, length, advice); }

int mlock(const void *address, size_t length) {
  (void)address, (void)length;
  return 0;
}

int munlock(const void *address, size_t length) { return mlock(address, length); }

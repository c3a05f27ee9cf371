// Calls on files, for `--file-calls`: the only files are the pools. A write stores into the mapped bytes; fsync, fdatasync and msync
// make them durable by flushes and a fence, as does each write to a file that was opened with O_SYNC or O_DSYNC.
#include "descriptor.h"
#include "hippo.h"
#include <errno.h>
#include <fcntl.h>
#include <string.h>
#include <sys/stat.h>
#include <sys/uio.h>
#include <sys/vfs.h>
#include <unistd.h>

static int failed(int number) {
  errno = number;
  return -1;
}

static int persist_file(const struct hippo_pool *pool) {
  pmem_persist(pool->bytes, pool->file->length);
  return 0;
}

int fsync(int number) {
  struct hippo_pool *pool = hippo_pool_of_descriptor(number);
  return pool ? persist_file(pool) : -1;
}

int fdatasync(int number) { return fsync(number); }

ssize_t pread(int number, void *to, size_t size, off_t offset) {
  if (offset < 0) return failed(EINVAL);
  struct hippo_open_file *from = hippo_open_file(number);
  if (!from) return -1;
  if (!hippo_may_read(from)) return failed(EBADF);
  struct hippo_pool *pool = from->pool;
  size_t left = (size_t)offset < pool->file->length ? pool->file->length - offset : 0;
  if (size > left) size = left;
  memcpy(to, pool->bytes + offset, size);
  return size;
}

// Writes at a place, or at the end of a file that is opened with O_APPEND, as Linux does; returns where the next byte goes, or -1.
static off_t write_at(int number, const void *from, size_t size, off_t offset) {
  struct hippo_open_file *to = hippo_open_file(number);
  if (!to) return -1;
  if (!hippo_may_write(to)) return failed(EBADF);
  struct hippo_pool *pool = to->pool;
  if (to->flags & O_APPEND) offset = pool->file->length;
  if (size == 0) return offset;
  if ((size_t)offset > pool->size || size > pool->size - offset) return failed(ENOSPC);
  memcpy(pool->bytes + offset, from, size);
  if (to->flags & (O_SYNC | O_DSYNC)) pmem_persist(pool->bytes + offset, size);
  size_t end = offset + size;
  if (end > pool->file->length && hippo_pool_set_length(pool, end)) return -1;
  return end;
}

ssize_t pwrite(int number, const void *from, size_t size, off_t offset) {
  if (offset < 0) return failed(EINVAL);
  return write_at(number, from, size, offset) < 0 ? -1 : (ssize_t)size;
}

ssize_t pread64(int number, void *to, size_t size, off64_t offset) { return pread(number, to, size, offset); }

ssize_t pwrite64(int number, const void *from, size_t size, off64_t offset) {
  return pwrite(number, from, size, offset);
}

ssize_t read(int number, void *to, size_t size) {
  if (number == STDIN_FILENO) return 0;
  struct hippo_open_file *from = hippo_open_file(number);
  ssize_t count = from ? pread(number, to, size, from->offset) : -1;
  if (count > 0) from->offset += count;
  return count;
}

ssize_t write(int number, const void *from, size_t size) {
  if (number == STDOUT_FILENO || number == STDERR_FILENO) return size;
  struct hippo_open_file *to = hippo_open_file(number);
  off_t next = to ? write_at(number, from, size, to->offset) : -1;
  if (next < 0) return -1;
  to->offset = next;
  return size;
}

ssize_t pwritev(int number, const struct iovec *parts, int count, off_t offset) {
  ssize_t written = 0;
  for (int i = 0; i < count; i++) {
    ssize_t part = pwrite(number, parts[i].iov_base, parts[i].iov_len, offset + written);
    if (part < 0) return written ? written : -1;
    written += part;
  }
  return written;
}

ssize_t writev(int number, const struct iovec *parts, int count) {
  ssize_t written = 0;
  for (int i = 0; i < count; i++) {
    ssize_t part = write(number, parts[i].iov_base, parts[i].iov_len);
    if (part < 0) return written ? written : -1;
    written += part;
  }
  return written;
}

// Where a search for data or for a hole ends: a file has data up to its end.
static off_t found_at(const struct hippo_pool *pool, off_t offset, int from) {
  off_t length = pool->file->length;
  if (offset < 0 || offset >= length) return failed(ENXIO);
  return from == SEEK_DATA ? offset : length;
}

off_t lseek(int number, off_t offset, int from) {
  struct hippo_open_file *moved = hippo_open_file(number);
  if (!moved) return -1;
  switch (from) {
  case SEEK_SET: break;
  case SEEK_CUR: offset += moved->offset; break;
  case SEEK_END: offset += moved->pool->file->length; break;
  case SEEK_DATA: case SEEK_HOLE:
    offset = found_at(moved->pool, offset, from);
    if (offset < 0) return -1;
    break;
  default: return failed(EINVAL);
  }
  if (offset < 0) return failed(EINVAL);
  moved->offset = offset;
  return offset;
}

off64_t lseek64(int number, off64_t offset, int from) { return lseek(number, offset, from); }

int ftruncate(int number, off_t length) {
  struct hippo_open_file *file = hippo_open_file(number);
  if (!file) return -1;
  return length < 0 || !hippo_may_write(file) ? failed(EINVAL) : hippo_pool_set_length(file->pool, length);
}

int ftruncate64(int number, off64_t length) { return ftruncate(number, length); }

int truncate(const char *path, off_t length) {
  struct hippo_pool *pool = hippo_pool_of_path(path);
  if (!pool) return -1;
  return length < 0 ? failed(EINVAL) : hippo_pool_set_length(pool, length);
}

// A pool always has room up to its size; the file becomes at least as long as the end of the range.
int posix_fallocate(int number, off_t offset, off_t length) {
  struct hippo_open_file *file = hippo_open_file(number);
  if (offset < 0 || length <= 0) return EINVAL;
  if (!file || !hippo_may_write(file)) return EBADF;
  size_t end = offset + length;
  return end > file->pool->file->length && hippo_pool_set_length(file->pool, end) ? ENOSPC : 0;
}

static int fill_status(const struct hippo_pool *pool, struct stat *to) {
  memset(to, 0, sizeof *to);
  to->st_mode = S_IFREG | 0600;
  to->st_ino = pool - hippo_pools + 1;
  to->st_nlink = 1;
  to->st_size = pool->file->length;
  to->st_blksize = 4096;
  to->st_blocks = (pool->file->length + 511) / 512;
  return 0;
}

int fstat(int number, struct stat *to) {
  struct hippo_pool *pool = hippo_pool_of_descriptor(number);
  return pool ? fill_status(pool, to) : -1;
}

int fstat64(int number, struct stat64 *to) { return fstat(number, (struct stat *)to); }

int stat(const char *restrict path, struct stat *restrict to) {
  struct hippo_pool *pool = hippo_pool_of_path(path);
  if (pool && pool->file->exists) return fill_status(pool, to);
  return failed(ENOENT);
}

int stat64(const char *restrict path, struct stat64 *restrict to) { return stat(path, (struct stat *)to); }

int lstat(const char *restrict path, struct stat *restrict to) { return stat(path, to); }

int lstat64(const char *restrict path, struct stat64 *restrict to) { return stat64(path, to); }

// Each pool is a file system of its size, of no known type.
int fstatfs(int number, struct statfs *to) {
  struct hippo_pool *pool = hippo_pool_of_descriptor(number);
  if (!pool) return -1;
  memset(to, 0, sizeof *to);
  to->f_bsize = 4096;
  to->f_blocks = pool->size / 4096;
  to->f_bfree = to->f_bavail = (pool->size - pool->file->length) / 4096;
  return 0;
}

int access(const char *path, int mode) {
  (void)mode;
  struct hippo_pool *pool = hippo_pool_of_path(path);
  return pool && pool->file->exists ? 0 : failed(ENOENT);
}

int unlink(const char *path) {
  struct hippo_pool *pool = hippo_pool_of_path(path);
  if (!pool || !pool->file->exists) return failed(ENOENT);
  hippo_pool_set_length(pool, 0);
  pool->file->exists = 0;
  pmem_persist(pool->file, sizeof *pool->file);
  return 0;
}

int remove(const char *path) { return unlink(path); }

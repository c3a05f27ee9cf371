// Descriptors of the pools, for `--file-calls`: open, dup, close, and the commands of fcntl.
#include "descriptor.h"
#include <errno.h>
#include <fcntl.h>
#include <stdarg.h>
#include <stddef.h>
#include <sys/file.h>
#include <unistd.h>

enum { FIRST = 3, DESCRIPTORS = 32 };
// The flags that F_GETFL does not give, those that F_SETFL changes, and the one that open adds on x86-64.
enum { OF_OPEN = O_CREAT | O_EXCL | O_NOCTTY | O_TRUNC | O_CLOEXEC, CHANGED = O_APPEND | O_ASYNC | O_DIRECT | O_NOATIME | O_NONBLOCK };
enum { LARGE_FILE = 0100000 };

static struct hippo_open_file files[DESCRIPTORS];
static struct {
  struct hippo_open_file *file; // a null pointer while the descriptor is closed
  int flags;                    // FD_CLOEXEC or 0
} descriptors[DESCRIPTORS];

static int failed(int number) {
  errno = number;
  return -1;
}

struct hippo_open_file *hippo_open_file(int number) {
  int known = number >= FIRST && number < FIRST + DESCRIPTORS && descriptors[number - FIRST].file;
  if (!known) errno = EBADF;
  return known ? descriptors[number - FIRST].file : NULL;
}

struct hippo_pool *hippo_pool_of_descriptor(int number) {
  struct hippo_open_file *found = hippo_open_file(number);
  return found ? found->pool : NULL;
}

int hippo_may_read(const struct hippo_open_file *file) { return (file->flags & O_ACCMODE) != O_WRONLY; }

int hippo_may_write(const struct hippo_open_file *file) { return (file->flags & O_ACCMODE) != O_RDONLY; }

static int is_open(const struct hippo_open_file *file) { return file->descriptors || file->mappings; }

void hippo_end_mapping(struct hippo_open_file *file) { file->mappings--; }

// Gives an open file its lowest free descriptor that is not below `least`.
static int new_descriptor(struct hippo_open_file *file, int least, int flags) {
  for (int i = least < FIRST ? 0 : least - FIRST; i < DESCRIPTORS; i++)
    if (!descriptors[i].file) {
      descriptors[i].file = file;
      descriptors[i].flags = flags;
      file->descriptors++;
      return FIRST + i;
    }
  return failed(EMFILE);
}

int open(const char *path, int flags, ...) {
  struct hippo_pool *pool = hippo_pool_of_path(path);
  struct hippo_open_file *file = files;
  while (file < files + DESCRIPTORS && is_open(file)) file++;
  if (file == files + DESCRIPTORS) return failed(EMFILE);
  if (!pool || hippo_pool_open(pool, flags)) return -1;
  *file = (struct hippo_open_file){pool, (flags & ~OF_OPEN) | LARGE_FILE, 0, 0, 0, 0};
  return new_descriptor(file, FIRST, flags & O_CLOEXEC ? FD_CLOEXEC : 0);
}

int open64(const char *path, int flags, ...) { return open(path, flags); }

int creat(const char *path, mode_t mode) {
  (void)mode;
  return open(path, O_CREAT | O_WRONLY | O_TRUNC);
}

int dup(int number) {
  struct hippo_open_file *file = hippo_open_file(number);
  return file ? new_descriptor(file, FIRST, 0) : -1;
}

int close(int number) {
  struct hippo_open_file *file = hippo_open_file(number);
  if (!file) return -1;
  file->descriptors--;
  descriptors[number - FIRST].file = NULL;
  return 0;
}

// One process runs, so each lock is free; but the access mode must allow it.
static int lock(const struct hippo_open_file *file, struct flock *lock, int is_query) {
  if (lock->l_type != F_RDLCK && lock->l_type != F_WRLCK && (is_query || lock->l_type != F_UNLCK)) return failed(EINVAL);
  if (is_query) {
    lock->l_type = F_UNLCK;
    return 0;
  }
  int may = lock->l_type == F_UNLCK || (lock->l_type == F_RDLCK ? hippo_may_read(file) : hippo_may_write(file));
  return may ? 0 : failed(EBADF);
}

int fcntl(int number, int command, ...) {
  struct hippo_open_file *file = hippo_open_file(number);
  if (!file) return -1;
  va_list arguments;
  va_start(arguments, command);
  int result = 0, least;
  switch (command) {
  case F_DUPFD: case F_DUPFD_CLOEXEC:
    least = va_arg(arguments, int);
    if (least < 0 || least >= FIRST + DESCRIPTORS)
      result = failed(EINVAL);
    else
      result = new_descriptor(file, least, command == F_DUPFD ? 0 : FD_CLOEXEC);
    break;
  case F_GETFD: result = descriptors[number - FIRST].flags; break;
  case F_SETFD: descriptors[number - FIRST].flags = va_arg(arguments, int) & FD_CLOEXEC; break;
  case F_GETFL: result = file->flags; break;
  case F_SETFL: file->flags = (file->flags & ~CHANGED) | (va_arg(arguments, int) & CHANGED); break;
  case F_GETLK: case F_OFD_GETLK: result = lock(file, va_arg(arguments, struct flock *), 1); break;
  case F_SETLK: case F_SETLKW: case F_OFD_SETLK: case F_OFD_SETLKW:
    result = lock(file, va_arg(arguments, struct flock *), 0);
    break;
  default: result = failed(EINVAL);
  }
  va_end(arguments);
  return result;
}

int fcntl64(int number, int command, ...) {
  va_list arguments;
  va_start(arguments, command);
  void *argument = va_arg(arguments, void *);
  va_end(arguments);
  return fcntl(number, command, argument);
}

// A pool is no device.
int ioctl(int number, unsigned long request, ...) {
  (void)request;
  return hippo_open_file(number) ? failed(ENOTTY) : -1;
}

// A lock of flock belongs to an open file, and ends with it. A wait for another open file of the one process would never end.
int flock(int number, int operation) {
  struct hippo_open_file *file = hippo_open_file(number);
  if (!file) return -1;
  int kind = operation & ~LOCK_NB;
  if (kind != LOCK_SH && kind != LOCK_EX && kind != LOCK_UN) return failed(EINVAL);
  file->lock = 0;
  if (kind == LOCK_UN) return 0;
  for (const struct hippo_open_file *other = files; other < files + DESCRIPTORS; other++)
    if (is_open(other) && other->pool == file->pool && other->lock && (kind == LOCK_EX || other->lock == LOCK_EX)) {
      if (!(operation & LOCK_NB)) __builtin_trap();
      return failed(EWOULDBLOCK);
    }
  file->lock = kind;
  return 0;
}

int lockf(int number, int command, off_t length) {
  (void)length;
  struct hippo_open_file *file = hippo_open_file(number);
  if (!file) return -1;
  if (command == F_ULOCK || command == F_TEST) return 0;
  if (command != F_LOCK && command != F_TLOCK) return failed(EINVAL);
  return hippo_may_write(file) ? 0 : failed(EBADF);
}

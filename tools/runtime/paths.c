// Calls on names of files, for `--file-calls`. The only files are the pools that exist; they lie in the folder "/", which is also the
// working folder, and a name with a slash in it is the path of a file below it.
#include "pool.h"
#include <dirent.h>
#include <errno.h>
#include <fcntl.h>
#include <fts.h>
#include <stdlib.h>
#include <string.h>
#include <sys/stat.h>
#include <sys/time.h>
#include <unistd.h>
#include <utime.h>

static int failed(int number) {
  errno = number;
  return -1;
}

static struct hippo_pool *existing(const char *path) {
  struct hippo_pool *pool = hippo_pool_of_path(path);
  if (pool && pool->file->exists) return pool;
  errno = ENOENT;
  return NULL;
}

static int is_folder(const char *path) { return strcmp(path, "/") == 0 || strcmp(path, ".") == 0 || strcmp(path, "./") == 0; }

int chmod(const char *path, mode_t mode) {
  (void)mode;
  return existing(path) ? 0 : -1;
}

int fchmod(int descriptor, mode_t mode) {
  (void)mode;
  return hippo_pool_of_descriptor(descriptor) ? 0 : -1;
}

int chown(const char *path, uid_t owner, gid_t group) {
  (void)owner, (void)group;
  return existing(path) ? 0 : -1;
}

int fchown(int descriptor, uid_t owner, gid_t group) {
  (void)owner, (void)group;
  return hippo_pool_of_descriptor(descriptor) ? 0 : -1;
}

// No name is a link.
ssize_t readlink(const char *restrict path, char *restrict to, size_t size) {
  (void)to, (void)size;
  return is_folder(path) || existing(path) ? failed(EINVAL) : -1;
}

// A pool keeps no times.
int utimes(const char *path, const struct timeval times[2]) {
  (void)times;
  return existing(path) ? 0 : -1;
}

int utime(const char *path, const struct utimbuf *times) {
  (void)times;
  return existing(path) ? 0 : -1;
}

int futimens(int descriptor, const struct timespec times[2]) {
  (void)times;
  return hippo_pool_of_descriptor(descriptor) ? 0 : -1;
}

// There is no room for another folder.
int mkdir(const char *path, mode_t mode) {
  (void)mode;
  return failed(is_folder(path) || existing(path) ? EEXIST : ENOSPC);
}

int rmdir(const char *path) {
  if (is_folder(path)) return failed(path[0] == '/' ? EBUSY : EINVAL);
  return existing(path) ? failed(ENOTDIR) : -1;
}

char *getcwd(char *to, size_t size) {
  if (to && size < 2) {
    errno = size ? ERANGE : EINVAL;
    return NULL;
  }
  return to ? strcpy(to, "/") : strdup("/");
}

char *realpath(const char *restrict path, char *restrict to) {
  if (path[0] == 0) {
    errno = ENOENT;
    return NULL;
  }
  const struct hippo_pool *pool = is_folder(path) ? NULL : existing(path);
  if (!pool && !is_folder(path)) return NULL;
  if (!to) to = malloc(4096);
  if (!to) return NULL;
  strcpy(to, pool && pool->name[0] == '/' ? "" : "/");
  return pool ? strcat(to, pool->name) : to;
}

// A new file takes the first name of a pool that the template fits and that has no file yet.
int mkstemp(char *path) {
  size_t length = strlen(path);
  if (length < 6 || strcmp(path + length - 6, "XXXXXX")) return failed(EINVAL);
  const char *slash = strrchr(path, '/');
  char *last = slash ? path + (slash - path) + 1 : path;
  for (unsigned long i = 0; i < hippo_pool_count; i++) {
    const struct hippo_pool *pool = &hippo_pools[i];
    if (pool->file->exists || strlen(pool->name) != strlen(last) || strncmp(pool->name, last, strlen(last) - 6)) continue;
    strcpy(last, pool->name);
    return open(path, O_RDWR | O_CREAT | O_EXCL, 0600);
  }
  return failed(EEXIST);
}

// Folders.

struct __dirstream {
  unsigned long next;
  struct dirent entry;
};

DIR *opendir(const char *path) {
  if (!is_folder(path)) {
    errno = existing(path) ? ENOTDIR : ENOENT;
    return NULL;
  }
  return calloc(1, sizeof(DIR));
}

struct dirent *readdir(DIR *folder) {
  while (folder->next < hippo_pool_count) {
    const struct hippo_pool *pool = &hippo_pools[folder->next++];
    if (!pool->file->exists || strchr(pool->name, '/') || strlen(pool->name) >= sizeof folder->entry.d_name) continue;
    folder->entry.d_ino = folder->next;
    folder->entry.d_off = (off_t)folder->next;
    folder->entry.d_reclen = sizeof folder->entry;
    folder->entry.d_type = DT_REG;
    strcpy(folder->entry.d_name, pool->name);
    return &folder->entry;
  }
  return NULL;
}

void rewinddir(DIR *folder) { folder->next = 0; }

int closedir(DIR *folder) {
  free(folder);
  return 0;
}

// A walk over paths: each is a file, or an entry that says that there is none.

struct walk {
  FTS fts;
  char *const *next;
  struct stat status;
};

FTS *fts_open(char *const *paths, int options, int (*compare)(const FTSENT **, const FTSENT **)) {
  struct walk *walk = calloc(1, sizeof *walk);
  if (!walk) return NULL;
  walk->fts.fts_options = options;
  walk->fts.fts_compar = (int (*)(const void *, const void *))compare;
  walk->next = paths;
  return &walk->fts;
}

FTSENT *fts_read(FTS *fts) {
  struct walk *walk = (struct walk *)fts;
  free(fts->fts_cur);
  fts->fts_cur = NULL;
  const char *path = *walk->next;
  if (!path) return NULL;
  walk->next++;
  size_t length = strlen(path);
  FTSENT *entry = calloc(1, sizeof *entry + length);
  if (!entry) return NULL;
  strcpy(entry->fts_name, path);
  entry->fts_path = entry->fts_accpath = entry->fts_name;
  entry->fts_pathlen = entry->fts_namelen = (unsigned short)length;
  entry->fts_statp = &walk->status;
  entry->fts_info = stat(path, &walk->status) ? FTS_NS : FTS_F;
  entry->fts_errno = entry->fts_info == FTS_NS ? errno : 0;
  return fts->fts_cur = entry;
}

int fts_close(FTS *fts) {
  free(fts->fts_cur);
  free(fts);
  return 0;
}

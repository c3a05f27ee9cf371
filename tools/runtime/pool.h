// Pools: the files that a program maps. Each is a persistent global; `--pool NAME=SIZE[,FILE]` of tools/lower makes the table.
#ifndef HIPPO_POOL_H
#define HIPPO_POOL_H

#include <stddef.h>

// The metadata of a file. It lies in the persistent region, and is durable when a call that changes it returns.
struct hippo_file {
  unsigned long length, exists;
};

struct hippo_pool {
  const char *name;
  unsigned char *bytes; // a persistent global, at a multiple of 4,096
  unsigned long size;   // of that global: the file's greatest length
  struct hippo_file *file;
};

extern struct hippo_pool hippo_pools[];
extern const unsigned long hippo_pool_count;

// The pool of this path, by its whole name or its last component, or a null pointer with ENOENT.
struct hippo_pool *hippo_pool_of_path(const char *path);

// The pool in whose bytes the address lies, or a null pointer.
const struct hippo_pool *hippo_pool_with(const void *address);

// Sets the length of the file and makes it durable; the bytes past it become zeros. Returns 0, or -1 with ENOSPC.
int hippo_pool_set_length(struct hippo_pool *pool, unsigned long length);

// Opens the file. The flags of open decide whether it must exist, is created or is emptied. Returns 0, or -1 with errno.
int hippo_pool_open(struct hippo_pool *pool, int flags);

// The pool of a file descriptor, or a null pointer with EBADF.
struct hippo_pool *hippo_pool_of_descriptor(int descriptor);

#endif

// Open files of the pools, for `--file-calls`. Several descriptors may share one open file: its offset and its flags.
#ifndef HIPPO_DESCRIPTOR_H
#define HIPPO_DESCRIPTOR_H

#include "pool.h"
#include <sys/types.h>

struct hippo_open_file {
  struct hippo_pool *pool;
  int flags;       // the access mode and the status flags, as F_GETFL gives them
  off_t offset;
  int descriptors; // how many descriptors have it
  int mappings;    // how many mappings have it; a file is closed when no descriptor and no mapping has it
  int lock;        // LOCK_SH or LOCK_EX of flock, or 0
};

// The open file of a descriptor, or a null pointer with EBADF.
struct hippo_open_file *hippo_open_file(int descriptor);

// Says that a mapping of the file ended.
void hippo_end_mapping(struct hippo_open_file *file);

// Whether the access mode allows to read or to write.
int hippo_may_read(const struct hippo_open_file *file);
int hippo_may_write(const struct hippo_open_file *file);

#endif

// Declarations of libpmem's calls for machines without libpmem, as hippo's runtime has them. A <libpmem.h> of the system comes first.
#ifndef LIBPMEM_H
#define LIBPMEM_H 1

#include <stddef.h>
#include <sys/types.h>

#ifdef __cplusplus
extern "C" {
#endif

// The flags of pmem_map_file.
#define PMEM_FILE_CREATE (1 << 0)
#define PMEM_FILE_EXCL (1 << 1)
#define PMEM_FILE_SPARSE (1 << 2)
#define PMEM_FILE_TMPFILE (1 << 3)

// The flags of the calls that copy or fill.
#define PMEM_F_MEM_NODRAIN (1U << 0)
#define PMEM_F_MEM_NONTEMPORAL (1U << 1)
#define PMEM_F_MEM_TEMPORAL (1U << 2)
#define PMEM_F_MEM_WC (1U << 3)
#define PMEM_F_MEM_WB (1U << 4)
#define PMEM_F_MEM_NOFLUSH (1U << 5)

#define PMEM_MAJOR_VERSION 1
#define PMEM_MINOR_VERSION 1

// Files of persistent memory; `--pool` of hippo-c names them.
void *pmem_map_file(const char *path, size_t length, int flags, mode_t mode, size_t *mapped, int *is_pmem);
int pmem_unmap(void *address, size_t length);
int pmem_is_pmem(const void *address, size_t length);

// Flushes and fences.
void pmem_persist(const void *address, size_t length);
void pmem_flush(const void *address, size_t length);
void pmem_drain(void);
int pmem_msync(const void *address, size_t length);
int pmem_deep_flush(const void *address, size_t length);
int pmem_deep_drain(const void *address, size_t length);
int pmem_deep_persist(const void *address, size_t length);
int pmem_has_hw_drain(void);
int pmem_has_auto_flush(void);

// Copies, with a flush and a fence after them if the name or the flags do not say otherwise.
void *pmem_memmove(void *to, const void *from, size_t length, unsigned flags);
void *pmem_memcpy(void *to, const void *from, size_t length, unsigned flags);
void *pmem_memset(void *to, int byte, size_t length, unsigned flags);
void *pmem_memmove_persist(void *to, const void *from, size_t length);
void *pmem_memcpy_persist(void *to, const void *from, size_t length);
void *pmem_memset_persist(void *to, int byte, size_t length);
void *pmem_memmove_nodrain(void *to, const void *from, size_t length);
void *pmem_memcpy_nodrain(void *to, const void *from, size_t length);
void *pmem_memset_nodrain(void *to, int byte, size_t length);

const char *pmem_check_version(unsigned major, unsigned minor);
const char *pmem_errormsg(void);

#ifdef __cplusplus
}
#endif

#endif

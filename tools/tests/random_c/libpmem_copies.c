// The copying calls of libpmem for native builds, which need no durability.
#include <string.h>

void *pmem_memcpy(void *to, const void *from, size_t size, unsigned flags) { return (void)flags, memcpy(to, from, size); }
void *pmem_memmove(void *to, const void *from, size_t size, unsigned flags) { return (void)flags, memmove(to, from, size); }
void *pmem_memset(void *to, int byte, size_t size, unsigned flags) { return (void)flags, memset(to, byte, size); }
void *pmem_memcpy_nodrain(void *to, const void *from, size_t size) { return memcpy(to, from, size); }
void *pmem_memmove_nodrain(void *to, const void *from, size_t size) { return memmove(to, from, size); }
void *pmem_memset_nodrain(void *to, int byte, size_t size) { return memset(to, byte, size); }
void *pmem_memcpy_persist(void *to, const void *from, size_t size) { return memcpy(to, from, size); }
void *pmem_memmove_persist(void *to, const void *from, size_t size) { return memmove(to, from, size); }
void *pmem_memset_persist(void *to, int byte, size_t size) { return memset(to, byte, size); }

// The external functions that hippo knows, and the mark of persistent data. Flushes and fences of one cache line are
// those of <immintrin.h>: _mm_clwb, _mm_clflushopt, _mm_clflush, _mm_sfence, _mm_mfence.
#ifndef HIPPO_H
#define HIPPO_H

#include <immintrin.h>
#include <stddef.h>

// A global with PERSISTENT before its definition lies in the persistent region. `used` keeps clang from removing a global
// that is never read, and from splitting it.
#define PERSISTENT __attribute__((section(".pm"), used))

// A persistent global or a field that may be lost, with the reason as a string, before or after its name:
//     PERSISTENT struct pool { long puts PERSISTENT_SCRATCH("recounted at start"); long count; } pool;
// hippo-c check leaves out the reports of stores to it alone.
#ifdef __cplusplus
#define PERSISTENT_SCRATCH(reason)                                                                                     \
    _Pragma("GCC error \"PERSISTENT_SCRATCH is for C; in C++ write the comment // hippo: volatile, REASON\"")
#elif defined(__clang__)
#define PERSISTENT_SCRATCH(reason) __attribute__((btf_decl_tag("hippo:volatile:" reason)))
#else
#define PERSISTENT_SCRATCH(reason)
#endif

#ifdef __cplusplus
extern "C" {
#endif

long long read_i64(void);                                  // the next number of the run's input
void print_i64(long long number);                          // the number in decimal, and a line feed
void pm_assert(const void *from, unsigned long long size); // these bytes must be durable here

// The functions of libpmem.
void pmem_flush(const void *from, size_t size);
void pmem_persist(const void *from, size_t size);
void pmem_drain(void);

// What a program tells hippo-c explore (docs/EXPLORE.md). Otherwise they do nothing, and hippo_prints returns 0.
void hippo_recovered(void);       // the recovery is over
void hippo_op(void);              // an operation begins, which a power cut must leave done or not done
void hippo_assume(int condition); // the program is not made for inputs that do not meet the condition
long long hippo_prints(void);     // how many numbers were printed before the power cut

#ifdef __cplusplus
}
#endif

#endif

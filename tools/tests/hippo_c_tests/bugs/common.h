// What the programs of this folder share. BUG is 1 for a program with its bug, and 0 for its correct twin. With VALID the recovery traps
// on a state that a correct program never leaves.
#include <hippo.h>
#include <stdint.h>

#ifndef BUG
#define BUG 0
#endif

#ifdef VALID
#define HOLDS(condition)                                                                                               \
  do {                                                                                                                 \
    if (!(condition)) __builtin_trap();                                                                                \
  } while (0)
#else
#define HOLDS(condition) ((void)(condition))
#endif

#define LINE _Alignas(64) // at the start of a cache line
#define FLUSH(object) pmem_flush(&(object), sizeof(object))
#define PERSIST(object) pmem_persist(&(object), sizeof(object))

// A word of memory, as the runtime copies and compares it: at its alignment, or at any address.
#ifndef HIPPO_WORDS_H
#define HIPPO_WORDS_H

#include <stddef.h>
#include <stdint.h>

typedef uint64_t __attribute__((may_alias)) word;
typedef uint64_t __attribute__((may_alias, aligned(1))) loose_word;

enum { WORD = sizeof(word) };

#endif

// For the two files of the heap.
#ifndef HIPPO_HEAP_H
#define HIPPO_HEAP_H

#include <stddef.h>

// Each block begins at a multiple of HIPPO_HEAP_UNIT bytes, and has at least HIPPO_HEAP_SMALLEST bytes.
enum { HIPPO_HEAP_UNIT = 16, HIPPO_HEAP_SMALLEST = 32 };

// Cuts a block in use in two, so that the memory of the second one begins at this place. The first one becomes free; the place is
// at least HIPPO_HEAP_SMALLEST after the memory, and at a multiple of HIPPO_HEAP_UNIT.
void *hippo_heap_cut(void *memory, void *place);

// Gives the heap its second arena, in a block of HIPPO_HEAP_ON_STACK bytes and HIPPO_HEAP_UNIT more. tools/lower calls it when main begins.
void hippo_heap_on_stack(void *block);

#endif

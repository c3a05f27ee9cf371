// The parts of musl's own <features.h> and <stdlib.h> that its sources need.
#include <stddef.h>
#define hidden
#define weak_alias(old, new) extern __typeof(old) new __attribute__((weak, alias(#old)))
void __qsort_r(void *, size_t, size_t, int (*)(const void *, const void *, void *), void *);

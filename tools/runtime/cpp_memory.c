// operator new and delete of C++, over the heap of malloc. A block that does not fit traps where the library would throw; the forms
// with std::nothrow give a null pointer. Each form calls the one that a program may replace, as in the library.
#include <stddef.h>
#include <stdlib.h>

static void (*handler)(void);

void (*_ZSt15set_new_handlerPFvvE(void (*next)(void)))(void) {
  void (*before)(void) = handler;
  handler = next;
  return before;
}

void (*_ZSt15get_new_handlerv(void))(void) { return handler; }

static void *taken(size_t size, size_t alignment, int may_fail) {
  if (!size) size = 1;
  for (;;) {
    void *memory = alignment ? aligned_alloc(alignment, (size + alignment - 1) & -alignment) : malloc(size);
    if (memory) return memory;
    if (!handler && may_fail) return NULL;
    if (!handler) __builtin_trap();
    handler();
  }
}

void *_Znwm(size_t size) { return taken(size, 0, 0); }
void *_ZnwmSt11align_val_t(size_t size, size_t alignment) { return taken(size, alignment, 0); }
void *_Znam(size_t size) { return _Znwm(size); }
void *_ZnamSt11align_val_t(size_t size, size_t alignment) { return _ZnwmSt11align_val_t(size, alignment); }

#ifdef HIPPO_OWN_NEW // the program has an operator new
void *_ZnwmRKSt9nothrow_t(size_t size, const void *tag) { return (void)tag, _Znwm(size); }
#else
void *_ZnwmRKSt9nothrow_t(size_t size, const void *tag) { return (void)tag, taken(size, 0, 1); }
#endif
void *_ZnamRKSt9nothrow_t(size_t size, const void *tag) { return _ZnwmRKSt9nothrow_t(size, tag); }
void *_ZnwmSt11align_val_tRKSt9nothrow_t(size_t size, size_t alignment, const void *tag) {
  return (void)tag, taken(size, alignment, 1);
}
void *_ZnamSt11align_val_tRKSt9nothrow_t(size_t size, size_t alignment, const void *tag) {
  return _ZnwmSt11align_val_tRKSt9nothrow_t(size, alignment, tag);
}

void _ZdlPv(void *memory) { free(memory); }
void _ZdaPv(void *memory) { _ZdlPv(memory); }
void _ZdlPvm(void *memory, size_t size) { (void)size, _ZdlPv(memory); }
void _ZdaPvm(void *memory, size_t size) { (void)size, _ZdaPv(memory); }
void _ZdlPvRKSt9nothrow_t(void *memory, const void *tag) { (void)tag, _ZdlPv(memory); }
void _ZdaPvRKSt9nothrow_t(void *memory, const void *tag) { (void)tag, _ZdaPv(memory); }
void _ZdlPvSt11align_val_t(void *memory, size_t alignment) { (void)alignment, free(memory); }
void _ZdaPvSt11align_val_t(void *memory, size_t alignment) { _ZdlPvSt11align_val_t(memory, alignment); }
void _ZdlPvmSt11align_val_t(void *memory, size_t size, size_t alignment) { (void)size, _ZdlPvSt11align_val_t(memory, alignment); }
void _ZdaPvmSt11align_val_t(void *memory, size_t size, size_t alignment) { (void)size, _ZdaPvSt11align_val_t(memory, alignment); }

char _ZSt7nothrow[1]; // std::nothrow

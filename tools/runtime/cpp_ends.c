// Destructors of objects with static storage and of those of the thread, and what the first use of such an object in a function needs.
#include <stddef.h>
#include <stdlib.h>

enum { OBJECTS = 256 };

struct objects {
  struct {
    void (*destroy)(void *);
    void *object;
  } entries[OBJECTS];
  int count;
};

void *__dso_handle;
char __libc_single_threaded = 1;

extern void (*hippo_thread_end)(void); // ends.c calls it first

static struct objects of_program, of_thread;

static void destroy_last(struct objects *objects) {
  objects->count--;
  objects->entries[objects->count].destroy(objects->entries[objects->count].object);
}

// One entry of atexit for each object of the program keeps the order among both.
static void end_object(void) { destroy_last(&of_program); }

static void end_thread(void) {
  while (of_thread.count) destroy_last(&of_thread);
}

// A program that registers more would lose destructors in silence.
static void add(struct objects *objects, void (*destroy)(void *), void *object) {
  if (objects->count == OBJECTS) __builtin_trap();
  objects->entries[objects->count].destroy = destroy;
  objects->entries[objects->count++].object = object;
}

int __cxa_atexit(void (*destroy)(void *), void *object, void *handle) {
  (void)handle;
  add(&of_program, destroy, object);
  if (atexit(end_object)) __builtin_trap();
  return 0;
}

int __cxa_thread_atexit(void (*destroy)(void *), void *object, void *handle) {
  (void)handle;
  add(&of_thread, destroy, object);
  hippo_thread_end = end_thread;
  return 0;
}

int __cxa_guard_acquire(char *guard) { return !*guard; }
void __cxa_guard_release(char *guard) { *guard = 1; }
void __cxa_guard_abort(char *guard) { (void)guard; }

// <iostream> has an object of this class in each file, also where no stream is used.
void _ZNSt8ios_base4InitC1Ev(void *object) { (void)object; }
void _ZNSt8ios_base4InitD1Ev(void *object) { (void)object; }

// Whether std::cout waits for what C writes, which is the same where neither writes.
_Bool _ZNSt8ios_base15sync_with_stdioEb(_Bool on) {
  static _Bool synchronised = 1;
  _Bool before = synchronised;
  synchronised = on;
  return before;
}

// What the instrumented program and the engine share: the state of a run, the table of the program, and the hooks.
#ifndef HOOKS_H
#define HOOKS_H

#include <stdint.h>

typedef uint8_t u8;
typedef uint32_t u32;
typedef uint64_t u64;
typedef int64_t i64;

// The addresses of hippo's memory: volatile globals, the stack and the persistent region.
#define VOLATILE_BASE 65536ull
#define STACK_BASE 268435456ull
#define STACK_SIZE 16777216ull
#define REGION_BASE 4294967296ull
#define MOST_FRAMES 16384
#define PAGE_SHIFT 12
#define MOST_PAGES 4097 // of the volatile globals, which have at most 16 MiB
#define MOST_EDGES 65536

// How a run ends. `ASSUMED` is a run that `hippo_assume` ends: it is no run of the user's.
enum ending { RUNNING, STOP, DIVZERO, DIVOVERFLOW, SHIFT, ADDRESS, MISALIGNED, STACK, DEPTH, INPUT, UNREACHABLE, CUT, FULL, ASSUMED };

// A call that has not returned: its site, its node in the tree of calls (0 until an event needs it), the mark of the stack before
// it, and the number of events before it.
struct frame {
  u32 call, path, events;
  u64 mark;
};

// The hot state of a run.
struct run_state {
  u64 turns, limit, mark;
  u32 depth, events, previous, in_last_segment;
  u8 is_tracking;
};

extern struct run_state hippo_hook_state;
extern struct frame hippo_hook_frames[MOST_FRAMES + 1];
extern u8 hippo_hook_edges[MOST_EDGES];
extern u8 hippo_hook_dirty_pages[MOST_PAGES];
extern u8 hippo_hook_ran[];

// The slow part of the hooks, in machine.c.
__attribute__((noreturn)) void hippo_hook_end(enum ending how, u32 site);
void hippo_hook_last_segment(u32 turns);
void hippo_hook_track(u64 address, u32 size);
void hippo_hook_persistent_store(u64 address, u64 value, u32 size, u32 site);
#endif

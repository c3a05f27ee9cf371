// The quick part of the hooks, which is inlined into the instrumented program. It is compiled once for a program, with the sizes of the
// program's memory: VOLATILE_SIZE and REGION_SIZE, and EDGE_MASK.
#include "hooks.h"

#define HOOK __attribute__((always_inline))
#define UNLIKELY(test) __builtin_expect(!!(test), 0)
#define STATE hippo_hook_state

// Whether the bytes lie in an area of a size. The address counts from the start of the area, and is huge if it is before it.
static inline int is_within(u64 offset, u64 size, u64 area) { return offset < area && area - offset >= size; }

static inline int is_persistent(u64 address, u64 size) { return is_within(address - REGION_BASE, size, REGION_SIZE); }
static inline int is_volatile(u64 address, u64 size) { return is_within(address - VOLATILE_BASE, size, VOLATILE_SIZE); }
static inline int is_on_stack(u64 address, u64 size) { return is_within(address - STACK_BASE, size, STATE.mark - STACK_BASE); }

// A basic block begins: `block` is its number, `mark` a random number of 16 bits, and `turns` the turns up to the first call of a
// defined function, or to the end of the block.
HOOK void hippo_hook_block(u32 block, u32 mark, u32 turns) {
  hippo_hook_ran[block] = 1;
  u8 *edge = &hippo_hook_edges[(STATE.previous ^ mark) & EDGE_MASK];
  u8 count = *edge + 1;
  *edge = count + (count == 0);
  STATE.previous = mark >> 1;
  STATE.turns += turns;
  if (UNLIKELY(STATE.turns > STATE.limit)) hippo_hook_last_segment(turns);
}

// The program goes on after a call of a defined function.
HOOK void hippo_hook_after_call(u32 turns) {
  STATE.depth--;
  STATE.mark = hippo_hook_frames[STATE.depth].mark;
  STATE.turns += turns;
  if (UNLIKELY(STATE.turns > STATE.limit)) hippo_hook_last_segment(turns);
}

HOOK void hippo_hook_call(u32 site) {
  if (UNLIKELY(STATE.depth == MOST_FRAMES - 1)) hippo_hook_end(DEPTH, site);
  struct frame *frame = &hippo_hook_frames[STATE.depth++];
  frame->call = site;
  frame->path = 0;
  frame->events = STATE.events;
  frame->mark = STATE.mark;
}

HOOK void hippo_hook_load(u64 address, u32 size, u32 align, u32 site) {
  if (UNLIKELY(address & (align - 1))) hippo_hook_end(MISALIGNED, site);
  if (is_persistent(address, size)) {
    if (UNLIKELY(STATE.is_tracking)) hippo_hook_track(address, size);
  } else if (UNLIKELY(!is_on_stack(address, size) && !is_volatile(address, size))) {
    hippo_hook_end(ADDRESS, site);
  }
}

HOOK void hippo_hook_store(u64 address, u64 value, u32 size, u32 align, u32 site) {
  if (UNLIKELY(address & (align - 1))) hippo_hook_end(MISALIGNED, site);
  if (is_on_stack(address, size)) return;
  if (is_volatile(address, size)) {
    hippo_hook_dirty_pages[(address - VOLATILE_BASE) >> PAGE_SHIFT] = 1;
    hippo_hook_dirty_pages[(address - VOLATILE_BASE + size - 1) >> PAGE_SHIFT] = 1;
  } else if (is_persistent(address, size)) {
    hippo_hook_persistent_store(address, value, size, site);
  } else {
    hippo_hook_end(ADDRESS, site);
  }
}

// The block of an `alloca`, with zeros from the old mark of the stack to the new one.
HOOK void *hippo_hook_alloca(u64 size, u64 align, u32 site) {
  u64 at = (STATE.mark + align - 1) & -align;
  if (UNLIKELY(at + size > STACK_BASE + STACK_SIZE)) hippo_hook_end(STACK, site);
  __builtin_memset((void *)STATE.mark, 0, at + size - STATE.mark);
  STATE.mark = at + size;
  return (void *)at;
}

HOOK void hippo_hook_divide(u64 divisor, u32 site) {
  if (UNLIKELY(divisor == 0)) hippo_hook_end(DIVZERO, site);
}

HOOK void hippo_hook_divide_signed(i64 dividend, i64 divisor, i64 least, u32 site) {
  if (UNLIKELY(divisor == 0)) hippo_hook_end(DIVZERO, site);
  if (UNLIKELY(divisor == -1 && dividend == least)) hippo_hook_end(DIVOVERFLOW, site);
}

HOOK void hippo_hook_shift(u64 amount, u64 width, u32 site) {
  if (UNLIKELY(amount >= width)) hippo_hook_end(SHIFT, site);
}

// Runs of the instrumented program: the slow part of the hooks, how runs begin and end, and the log of their events.
#define _GNU_SOURCE
#include <setjmp.h>
#include <stdlib.h>
#include <string.h>

#include "engine.h"

#define STATE hippo_hook_state

struct run_state hippo_hook_state;
struct frame hippo_hook_frames[MOST_FRAMES + 1];
u8 hippo_hook_edges[MOST_EDGES];
u8 hippo_hook_dirty_pages[MOST_PAGES];

struct event *events;
i64 *prints;
u32 *print_events, *print_operations, *operation_inputs;
struct read_place *reads_made;
struct run last_run;
struct input input;
u32 epoch;
u64 run_count, turn_limit;

static sigjmp_buf way_out;
static u32 *dirty_lines, dirty_count, *dirty_epoch;
static u8 *initial_volatile;

void make_machine(void) {
  events = reserved(MOST_EVENTS * sizeof *events);
  prints = reserved(MOST_PRINTS * sizeof *prints);
  print_events = reserved(MOST_PRINTS * sizeof *print_events);
  print_operations = reserved(MOST_PRINTS * sizeof *print_operations);
  operation_inputs = reserved(MOST_EVENTS * sizeof *operation_inputs);
  reads_made = reserved((MOST_NUMBERS + 1) * sizeof *reads_made);
  dirty_lines = reserved(hippo_program_region / LINE * sizeof *dirty_lines);
  dirty_epoch = reserved(hippo_program_region / LINE * sizeof *dirty_epoch);
  initial_volatile = reserved(hippo_program_volatile);
  if (hippo_program_volatile) memcpy(initial_volatile, (void *)VOLATILE_BASE, hippo_program_volatile);
  make_paths();
  make_lines();
  make_reads();
}

u64 mixed(u64 hash, u64 value) {
  hash ^= value + 0x9e3779b97f4a7c15ull + (hash << 6) + (hash >> 2);
  hash *= 0xff51afd7ed558ccdull;
  return hash ^ hash >> 32;
}

// ---- how a run ends

__attribute__((noreturn)) static void leave(enum ending how, u32 site) {
  last_run.ending = how;
  last_run.site = site;
  last_run.path = how == CUT ? ROOT : current_path();
  siglongjmp(way_out, 1);
}

// The turns of a segment pass the limit. The run goes on up to the limit: `in_last_segment` is the number of turns of the segment.
void hippo_hook_last_segment(u32 turns) {
  if (STATE.in_last_segment) leave(CUT, 0);
  STATE.in_last_segment = turns;
}

// Ends the run if the limit comes before this instruction. A flush or a fence is no turn, so it still runs at the limit.
static void cut_before(u32 site, int is_turn) {
  if (!STATE.in_last_segment) return;
  u64 left = STATE.limit - (STATE.turns - STATE.in_last_segment);
  if (hippo_program_turns[site] + (is_turn ? 1u : 0u) > left) leave(CUT, site);
}

// A trap of an instruction that is a turn, or an end that the engine imposes.
__attribute__((noreturn)) void hippo_hook_end(enum ending how, u32 site) {
  if (how != FULL) cut_before(site, 1);
  leave(how, site);
}

// ---- events

static u32 add_event(enum event_kind kind, u64 address, u64 value, u8 size, u32 site) {
  if (STATE.events == MOST_EVENTS) leave(FULL, site);
  events[STATE.events] = (struct event){kind, size, site, current_path(), last_run.operations, address, value};
  return STATE.events++;
}

static int is_valid(u64 address, u64 size) {
  u64 in_region = address - REGION_BASE, in_volatile = address - VOLATILE_BASE, on_stack = address - STACK_BASE;
  u64 stack = STATE.mark - STACK_BASE;
  return (in_region <= hippo_program_region && hippo_program_region - in_region >= size) ||
         (in_volatile <= hippo_program_volatile && hippo_program_volatile - in_volatile >= size) ||
         (on_stack <= stack && stack - on_stack >= size);
}

static int is_in_region(u64 address, u64 size) {
  u64 offset = address - REGION_BASE;
  return offset <= hippo_program_region && hippo_program_region - offset >= size;
}

void hippo_hook_persistent_store(u64 address, u64 value, u32 size, u32 site) {
  cut_before(site, 1);
  u64 offset = address - REGION_BASE;
  for (u64 line = offset / LINE; line <= (offset + size - 1) / LINE; line++)
    if (dirty_epoch[line] != epoch) dirty_epoch[line] = epoch, dirty_lines[dirty_count++] = line;
  if (STATE.is_tracking) read_stored(offset, size);
  line_stored(add_event(STORE, address, value, size, site));
}

// The lines of a range as the trace has them: the address of the first one, and 64 times their number.
static u32 add_lines(enum event_kind kind, u64 address, u64 size, u32 site) {
  u64 offset = address - REGION_BASE, first = offset / LINE, last = (offset + size - 1) / LINE;
  return add_event(kind, REGION_BASE + first * LINE, (last - first + 1) * LINE, 0, site);
}

void hippo_hook_flush(u64 address, u64 size, u32 site) {
  cut_before(site, 0);
  if (!size) return;
  if (!is_valid(address, size)) leave(ADDRESS, site);
  if (is_in_region(address, size)) line_flushed(add_lines(FLUSH, address, size, site));
}

void hippo_hook_fence(u32 site) {
  cut_before(site, 0);
  line_fenced(add_event(FENCE, 0, 0, 0, site));
}

void hippo_hook_persist(u64 address, u64 size, u32 site) {
  cut_before(site, 0);
  if (size && !is_valid(address, size)) leave(ADDRESS, site);
  if (!size || !is_in_region(address, size)) {
    hippo_hook_fence(site);
    return;
  }
  u32 event = add_lines(PERSIST, address, size, site);
  line_flushed(event);
  line_fenced(event);
}

void hippo_hook_assert(u64 address, u64 size, u32 site) {
  cut_before(site, 1);
  if (!is_in_region(address, size)) leave(ADDRESS, site);
  u32 event = add_event(ASSERT, address, size, 0, site);
  check_range(address - REGION_BASE, address - REGION_BASE + size, event);
}

u32 operation_class, operation_path;

void hippo_hook_operation(void);
void hippo_hook_recovered(void);

i64 hippo_hook_read(u32 site) {
  cut_before(site, 1);
  if (operation_class && hippo_program_classes[site] == operation_class && current_path() == operation_path) hippo_hook_operation();
  if (!hippo_program_marks_recovery && hippo_program_classes[site]) hippo_hook_recovered();
  if (input.taken == input.count) {
    if (!input.draw || input.count >= input.most) leave(INPUT, site);
    input.numbers[input.count++] = input.draw();
  }
  reads_made[input.taken] = (struct read_place){hippo_program_classes[site], current_path(), STATE.events};
  return input.numbers[input.taken++];
}

void hippo_hook_print(i64 number, u32 site) {
  cut_before(site, 1);
  if (last_run.prints == MOST_PRINTS) leave(FULL, site);
  print_events[last_run.prints] = STATE.events;
  print_operations[last_run.prints] = last_run.operations;
  prints[last_run.prints++] = number;
}

void hippo_hook_unreachable(u32 site) { hippo_hook_end(UNREACHABLE, site); }
void hippo_hook_assumed(u32 site) { hippo_hook_end(ASSUMED, site); }

// The recovery is over.
void hippo_hook_recovered(void) {
  if (last_run.recovered == ~0u) last_run.recovered = STATE.events;
}

// An operation of the program begins.
void hippo_hook_operation(void) {
  if (last_run.operations == MOST_EVENTS - 1) leave(FULL, 0);
  operation_inputs[last_run.operations++] = input.taken;
  hippo_hook_recovered();
}

// ---- runs

static void begin_run(void) {
  epoch++, run_count++;
  dirty_count = 0;
  STATE.turns = STATE.depth = STATE.events = STATE.previous = STATE.in_last_segment = 0;
  STATE.limit = turn_limit;
  STATE.mark = STACK_BASE;
  input.taken = 0;
  last_run = (struct run){.path = ROOT, .recovered = ~0u};
  begin_lines();
  begin_reads();
}

static void restore_volatile(void) {
  for (u64 page = 0; page <= hippo_program_volatile >> PAGE_SHIFT && hippo_program_volatile; page++) {
    if (!hippo_hook_dirty_pages[page]) continue;
    hippo_hook_dirty_pages[page] = 0;
    u64 from = page << PAGE_SHIFT, left = hippo_program_volatile - from;
    memcpy((void *)(VOLATILE_BASE + from), initial_volatile + from, left < 1 << PAGE_SHIFT ? left : 1 << PAGE_SHIFT);
  }
}

struct run run_program(int with_check) {
  begin_run();
  if (!sigsetjmp(way_out, 0)) {
    int status = hippo_program_main();
    if (STATE.in_last_segment) leave(CUT, 0);
    last_run.ending = STOP;
    last_run.status = status;
    if (with_check) check_range(0, hippo_program_region, STATE.events);
  }
  last_run.turns = STATE.turns;
  last_run.events = STATE.events;
  if (last_run.recovered == ~0u) last_run.recovered = STATE.events;
  restore_volatile();
  return last_run;
}

void restore_region(const u8 *bytes) {
  for (u32 i = 0; i < dirty_count; i++) {
    u64 at = (u64)dirty_lines[i] * LINE;
    memcpy(REGION + at, bytes + at, LINE);
  }
  dirty_count = 0;
}

// Operations that a power cut leaves done or not done: after a crash in operation k the program prints what it prints in a run with k, or in one
// without it. If k had printed a number before the crash, it was acknowledged, and only the first counts.
#include <stdio.h>
#include <stdlib.h>
#include <string.h>

#include "crash.h"

#define MOST_CAUSES 1024
#define MOST_READS_LOOKED_AT 1024

int is_atomic; // operations are looked for where the program does not mark them
static i64 *numbers_, *printed, *without, *resumed, *expected;
static u32 number_count, printed_count, without_count, resumed_count, expected_count;
static u32 *starts, operation_count, *printed_operations, *printed_events;
static u32 skipped, skipped_without; // the prints of the runs before those that are compared
static u32 operation;                // of the crash; 0 before the first one
static int is_acknowledged, is_comparing;
static u32 acknowledging; // the number of the last print of the operation before the crash, from 1 on
static int ends_without; // whether the run without the operation ends well, so that its prints say something
static u64 causes[MOST_CAUSES];
static u32 cause_count, prepared; // the operation whose inputs are made

static void *copied(void *old, const void *from, u64 size) {
  void *to = realloc(old, size + 8);
  if (!to) abort();
  if (size) memcpy(to, from, size);
  return to;
}

static int occurs_again(u32 read) {
  for (u32 i = read + 1; i < input.taken; i++)
    if (reads_made[i].class == reads_made[read].class && reads_made[i].path == reads_made[read].path) return 1;
  return 0;
}

// The read of the last run that begins an operation: the first one at the outermost place that reads more than once. ~0 if there is none.
u32 first_of_operations(void) {
  u32 best = ~0u;
  for (u32 i = 0; i < input.taken && i < MOST_READS_LOOKED_AT; i++) {
    if (best != ~0u && path_depth(reads_made[i].path) >= path_depth(reads_made[best].path)) continue;
    if (reads_made[i].class && occurs_again(i)) best = i;
  }
  return best;
}

// A last operation that reads at most one number and does nothing is the end of the input.
static u32 without_end(u32 count) {
  if (!count || input.taken > operation_inputs[count - 1] + 1) return count;
  for (u32 i = 0; i < last_run.events; i++)
    if (events[i].operation == count && events[i].kind == STORE) return count;
  for (u32 i = 0; i < last_run.prints; i++)
    if (print_operations[i] == count) return count;
  return count - 1;
}

void keep_operations(const i64 *numbers, u32 count) {
  is_comparing = 0;
  if (is_atomic && !last_run.operations) {
    u32 first = first_of_operations();
    operation_class = first == ~0u ? 0 : reads_made[first].class;
    operation_path = first == ~0u ? 0 : reads_made[first].path;
    run_program(0);
    restore_region(initial_region);
    forget_edges();
  }
  operation_count = without_end(last_run.operations);
  numbers_ = copied(numbers_, numbers, count * sizeof *numbers), number_count = count;
  starts = copied(starts, operation_inputs, last_run.operations * sizeof *starts);
  if (operation_count == last_run.operations) {
    starts = realloc(starts, (operation_count + 1) * sizeof *starts);
    if (!starts) abort();
    starts[operation_count] = input.taken;
  }
  printed = copied(printed, prints, last_run.prints * sizeof *printed), printed_count = last_run.prints;
  printed_operations = copied(printed_operations, print_operations, printed_count * sizeof *printed_operations);
  printed_events = copied(printed_events, print_events, printed_count * sizeof *printed_events);
  prepared = ~0u;
}

int finds_outputs(void) { return operation_count > 0; }

// The number of head numbers that count the operations, lowered by `less`.
static void lower_count(i64 *numbers, u32 less) {
  u32 found = 0, at = 0;
  for (u32 i = 0; i < starts[0]; i++)
    if (numbers_[i] == operation_count) found++, at = i;
  if (found == 1) numbers[at] = (i64)operation_count - less;
}

static u32 first_print_of(const u32 *operations, u32 count, u32 least) {
  u32 at = 0;
  while (at < count && operations[at] < least) at++;
  return at;
}

// The input without operation k, and what it prints from then on.
static void run_without(u32 k) {
  u32 from = k ? starts[k - 1] : 0, to = k ? starts[k] : 0;
  without = realloc(without, (number_count + 1) * sizeof *without);
  if (!without) abort();
  memcpy(without, numbers_, from * sizeof *without);
  memcpy(without + from, numbers_ + to, (number_count - to) * sizeof *without);
  without_count = number_count - (to - from);
  if (k) lower_count(without, 1);
  u8 *here = malloc(hippo_program_region + 1);
  if (!here) abort();
  memcpy(here, REGION, hippo_program_region);
  memcpy(REGION, initial_region, hippo_program_region);
  set_input(without, without_count);
  run_program(0);
  memcpy(REGION, here, hippo_program_region);
  free(here);
  ends_without = last_run.ending == STOP || last_run.ending == INPUT;
  skipped_without = first_print_of(print_operations, last_run.prints, k ? k : 1);
  expected = copied(expected, prints, last_run.prints * sizeof *expected), expected_count = last_run.prints;
}

// The input of the run after a crash in operation k: what comes before all operations, and those after k.
static void resume_after(u32 k) {
  u32 head = starts[0], from = k < operation_count ? starts[k] : starts[operation_count];
  resumed = realloc(resumed, (number_count + 1) * sizeof *resumed);
  if (!resumed) abort();
  memcpy(resumed, numbers_, head * sizeof *resumed);
  memcpy(resumed + head, numbers_ + from, (number_count - from) * sizeof *resumed);
  resumed_count = head + number_count - from;
  lower_count(resumed, k);
}

u64 begin_outputs(u64 told, u32 prints_before) {
  operation = at_event ? current.events[at_event - 1].operation : 0;
  if (operation > operation_count) operation = operation_count;
  is_acknowledged = 0;
  for (u32 i = 0; i < printed_count && i < prints_before; i++)
    if (operation && printed_operations[i] == operation) is_acknowledged = 1, acknowledging = i + 1;
  if (prepared != operation) {
    run_without(operation);
    resume_after(operation);
    skipped = first_print_of(printed_operations, printed_count, operation + 1);
    prepared = operation;
  }
  is_comparing = 1;
  return mixed(told, operation * 2 + (u32)is_acknowledged + 1000);
}

void set_crash_input(void) {
  if (is_comparing) set_input(resumed, resumed_count);
  else set_input(numbers_, number_count);
}

static int prints_are(const i64 *wanted, u32 from, u32 count, u32 skip) {
  u32 own = last_run.prints - skip;
  return own == count - from && !memcmp(prints + skip, wanted + from, own * sizeof *wanted);
}

static void write_list(const char *name, const i64 *numbers, u32 count) {
  printf(" %s=", name);
  write_numbers(numbers, count);
}

// A cause is known by the event before the crash.
static int is_new_cause(void) {
  u64 cause = mixed(at_event ? current.events[at_event - 1].site : 0, (u64)is_acknowledged + 9);
  for (u32 i = 0; i < cause_count; i++)
    if (causes[i] == cause) return 0;
  if (cause_count == MOST_CAUSES) return 0;
  causes[cause_count++] = cause;
  return 1;
}

int judge_outputs(const struct leaf *leaf, const u32 *chosen) {
  if (leaf->ending != STOP && leaf->ending != INPUT) return 0; // the other pass shows traps
  u32 skip = first_print_of(print_operations, last_run.prints, 1);
  if (prints_are(printed, skipped, printed_count, skip)) return 0;
  if (!is_acknowledged && !ends_without) return 0;
  if (!is_acknowledged && prints_are(expected, skipped_without, expected_count, skip)) return 0;
  if (!is_new_cause()) return 1;
  printf("outputs acknowledged=%d print=%u operation=%u skips=%u,%u,%u told=%llu", is_acknowledged, is_acknowledged ? acknowledging : 0, operation,
         skipped, skipped_without, skip, (unsigned long long)current.told);
  write_list("input", numbers_, number_count);
  write_start();
  write_list("without", without, without_count);
  write_list("resumed", resumed, resumed_count);
  printf(" at=");
  if (at_event) write_site(&current.events[at_event - 1]);
  write_cuts(chosen);
  putchar('\n');
  fflush(stdout);
  return 1;
}

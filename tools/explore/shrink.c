// Smaller inputs that still show a report.
#include <string.h>

#include "inputs.h"

static u64 wanted;
static int is_shown;
static u32 runs_left;

static void watch(const struct report *report) { is_shown |= report_hash(report) == wanted; }

int shows_key(u64 hash, const i64 *numbers, u32 count) {
  void (*before)(const struct report *) = on_report;
  wanted = hash, is_shown = 0, on_report = watch;
  set_input(numbers, count);
  i64 (*draw)(void) = input.draw;
  input.draw = NULL;
  run_program(1);
  restore_region(initial_region);
  forget_edges();
  input.draw = draw, on_report = before;
  return is_shown;
}

static int still_shows(u64 hash, const i64 *numbers, u32 count) {
  if (!runs_left) return 0;
  runs_left--;
  return shows_key(hash, numbers, count);
}

// Whether the input shows the key without some numbers; the first number may count the operations, so that it must be lower too.
static int without(u64 hash, i64 *numbers, u32 count, u32 at, u32 removed) {
  static i64 shorter[MOST_NUMBERS];
  memcpy(shorter, numbers, at * sizeof *numbers);
  memcpy(shorter + at, numbers + at + removed, (count - at - removed) * sizeof *numbers);
  int shown = still_shows(hash, shorter, count - removed);
  for (i64 lower = 1; lower <= 2 && !shown && at > 0 && numbers[0] > lower; lower++) {
    shorter[0] = numbers[0] - lower;
    shown = still_shows(hash, shorter, count - removed);
  }
  if (shown) memcpy(numbers, shorter, (count - removed) * sizeof *numbers);
  return shown;
}

static u32 remove_pieces(u64 hash, i64 *numbers, u32 count) {
  for (u32 size = count > 1 ? count / 2 : 1; size >= 1; size /= 2)
    for (u32 at = 0; at + size <= count;) {
      if (without(hash, numbers, count, at, size)) count -= size;
      else at += size;
    }
  return count;
}

// Puts 0, 1, 2 or the half in place of each greater number, if that shows the key too.
static int make_numbers_small(u64 hash, i64 *numbers, u32 count) {
  int changed = 0;
  for (u32 at = 0; at < count; at++) {
    i64 before = numbers[at], tries[] = {0, 1, 2, before / 2};
    for (u32 i = 0; i < 4; i++) {
      if (tries[i] < least_number || tries[i] > greatest_number || (before >= 0 && tries[i] >= before)) continue;
      numbers[at] = tries[i];
      if (tries[i] != before && still_shows(hash, numbers, count)) {
        changed = 1;
        break;
      }
      numbers[at] = before;
    }
  }
  return changed;
}

u32 shrink_input(u64 hash, i64 *numbers, u32 count, u32 most) {
  runs_left = most;
  for (int again = 1; again && runs_left;) {
    u32 before = count;
    count = remove_pieces(hash, numbers, count);
    again = make_numbers_small(hash, numbers, count) || count < before;
  }
  return count;
}

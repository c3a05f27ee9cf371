// The cache lines of the region: which stores are durable, and what a check reports. The rules are those of docs/SEMANTICS.md.
#include <stdlib.h>

#include "engine.h"

#define NONE 0xffffffffu

// The part of a store in a line. `index` counts from 1; `before` is the number of the part before it in its line.
struct part {
  u32 event, first_flush, before, index;
};

// The number of a line's parts, how many of them are flushed and durable, and the last one; valid in one run.
struct line {
  u32 epoch, count, flushed, durable, last;
  u8 is_listed;
};

struct loose {
  u32 event, first_flush;
  int is_flushed;
};

void (*on_report)(const struct report *);

static struct line *lines;
static struct part *parts;
static u32 part_count, last_fence;
static u32 *pending, pending_count; // lines that may have parts that are not durable
static u32 *queue, queued;          // lines that were flushed since the last fence
static struct loose *found;
static u32 found_count;

void make_lines(void) {
  u64 count = hippo_program_region / LINE;
  lines = reserved(count * sizeof *lines);
  pending = reserved(count * sizeof *pending);
  parts = reserved(MOST_PARTS * sizeof *parts);
  queue = reserved(MOST_PARTS * sizeof *queue);
  found = reserved(MOST_PARTS * sizeof *found);
}

void begin_lines(void) { part_count = pending_count = queued = 0, last_fence = NONE; }

static struct line *line_of(u32 number) {
  struct line *line = &lines[number];
  if (line->epoch != epoch) *line = (struct line){.epoch = epoch, .last = NONE};
  return line;
}

static void add_part(u32 number, u32 event) {
  struct line *line = line_of(number);
  if (part_count == MOST_PARTS) hippo_hook_end(FULL, 0);
  if (!line->is_listed) line->is_listed = 1, pending[pending_count++] = number;
  parts[part_count] = (struct part){event, NONE, line->last, ++line->count};
  line->last = part_count++;
}

void line_stored(u32 event) {
  u64 offset = events[event].address - REGION_BASE, last = (offset + events[event].size - 1) / LINE;
  for (u64 number = offset / LINE; number <= last; number++) add_part(number, event);
}

void line_flushed(u32 event) {
  u64 first = (events[event].address - REGION_BASE) / LINE, count = events[event].value / LINE;
  for (u64 number = first; number < first + count; number++) {
    struct line *line = &lines[number];
    if (line->epoch != epoch || line->flushed == line->count) continue;
    for (u32 at = line->last; at != NONE && parts[at].index > line->flushed; at = parts[at].before) parts[at].first_flush = event;
    line->flushed = line->count;
    queue[queued++] = number;
  }
}

void line_fenced(u32 event) {
  for (u32 i = 0; i < queued; i++) lines[queue[i]].durable = lines[queue[i]].flushed;
  queued = 0;
  last_fence = event;
}

// The bytes of a store in a line, as a mask.
static u64 bytes_in(const struct event *store, u64 line_start) {
  u64 offset = store->address - REGION_BASE, all = (1ull << store->size) - 1;
  return offset >= line_start ? all << (offset - line_start) : all >> (line_start - offset);
}

// The bytes of a range in a line, as a mask.
static u64 range_in(u64 from, u64 to, u64 line_start) {
  u64 mask = ~0ull;
  if (from > line_start) mask &= ~0ull << (from - line_start);
  if (to < line_start + LINE) mask &= ~0ull >> (line_start + LINE - to);
  return mask;
}

// Adds the parts of a line that are not durable and the last ones over a byte of the range.
static void find_loose(u32 number, u64 from, u64 to) {
  struct line *line = &lines[number];
  u64 start = (u64)number * LINE, range = range_in(from, to, start), covered = 0;
  for (u32 at = line->last; at != NONE && parts[at].index > line->durable; at = parts[at].before) {
    u64 bytes = bytes_in(&events[parts[at].event], start);
    if (bytes & ~covered & range)
      found[found_count++] = (struct loose){parts[at].event, parts[at].first_flush, parts[at].index <= line->flushed};
    covered |= bytes;
  }
}

static int by_event(const void *a, const void *b) {
  u32 one = ((const struct loose *)a)->event, other = ((const struct loose *)b)->event;
  return (one > other) - (one < other);
}

// How many calls of an event's path have returned. A standing call was made before the event if there were no more events then.
static u32 closed_of(u32 event) {
  u32 standing = 0;
  while (standing < hippo_hook_state.depth && hippo_hook_frames[standing].events <= event) standing++;
  u32 depth = path_depth(events[event].path);
  return depth > standing ? depth - standing : 0;
}

// The report of a store from its loose parts; the number of these.
static u32 report_store(const struct loose *first, u32 left, u32 check) {
  u32 count = 0, flush = NONE;
  int all_flushed = 1;
  for (; count < left && first[count].event == first->event; count++) {
    all_flushed &= first[count].is_flushed;
    if (first[count].first_flush != NONE && (flush == NONE || first[count].first_flush > flush)) flush = first[count].first_flush;
  }
  int fenced = last_fence != NONE && last_fence > first->event;
  struct report report = {all_flushed ? MISSING_FENCE : fenced ? MISSING_FLUSH : MISSING_BOTH, first->event, check,
                          all_flushed ? flush : NONE, closed_of(first->event)};
  on_report(&report);
  return count;
}

// Forgets the pending lines whose stores are all durable.
static void tidy_pending(void) {
  u32 kept = 0;
  for (u32 i = 0; i < pending_count; i++) {
    struct line *line = &lines[pending[i]];
    if (line->count > line->durable) pending[kept++] = pending[i];
    else line->is_listed = 0;
  }
  pending_count = kept;
}

void check_range(u64 from, u64 to, u32 check) {
  if (!on_report || from >= to) return;
  u64 first = from / LINE, last = (to - 1) / LINE;
  found_count = 0;
  tidy_pending();
  if (last - first < pending_count) {
    for (u64 number = first; number <= last; number++)
      if (lines[number].epoch == epoch) find_loose(number, from, to);
  } else {
    for (u32 i = 0; i < pending_count; i++)
      if (pending[i] >= first && pending[i] <= last) find_loose(pending[i], from, to);
  }
  qsort(found, found_count, sizeof *found, by_event);
  for (u32 i = 0; i < found_count;) i += report_store(&found[i], found_count - i, check);
}

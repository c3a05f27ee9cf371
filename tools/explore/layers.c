// The cache lines of a run that crashes, event by event, and the contents that a crash may leave in each.
#include <stdlib.h>
#include <string.h>

#include "crash.h"

#define MOST_CONTENTS (1u << 19)
#define NONE 0xffffffffu

// The events of a line's stores, and how many of these are flushed and durable. `open` is the number of the open line, or NONE.
struct stores {
  u32 *events, count, room, flushed, durable, open, pending;
  u8 is_listed, is_unsettled, is_queued;
};

struct crashed current;
u32 at_event, pending_count;
struct pending pending[MOST_PENDING];
u8 *durable_image;
int is_cut_short;

static struct stores *lines;
static u32 *listed, listed_count;       // all lines with stores, or open, or certain
static u32 *unsettled, unsettled_count; // those that may have several contents
static u32 *queue, queued;              // those that were flushed since the last fence
static struct content *contents;
static u32 content_count;

void make_layers(void) {
  u64 count = hippo_program_region / LINE;
  lines = reserved(count * sizeof *lines);
  listed = reserved(count * sizeof *listed);
  unsettled = reserved(count * sizeof *unsettled);
  queue = reserved(count * sizeof *queue);
  contents = reserved(MOST_CONTENTS * sizeof *contents);
  durable_image = reserved(hippo_program_region);
  if (hippo_program_region) memcpy(durable_image, initial_region, hippo_program_region);
}

static void put_line(u32 number, const u8 *bytes) {
  memcpy(durable_image + (u64)number * LINE, bytes, LINE);
  memcpy(REGION + (u64)number * LINE, bytes, LINE);
}

static struct stores *listed_line(u32 number) {
  struct stores *line = &lines[number];
  if (!line->is_listed) {
    line->is_listed = 1, line->open = line->pending = NONE;
    listed[listed_count++] = number;
  }
  return line;
}

static void unsettle(u32 number) {
  struct stores *line = listed_line(number);
  if (!line->is_unsettled) line->is_unsettled = 1, unsettled[unsettled_count++] = number;
}

// The region has its bytes before the first run again.
void end_layer(void) {
  for (u32 i = 0; i < listed_count; i++) {
    struct stores *line = &lines[listed[i]];
    line->count = line->flushed = line->durable = 0;
    line->is_listed = line->is_unsettled = line->is_queued = 0;
    put_line(listed[i], initial_region + (u64)listed[i] * LINE);
  }
  listed_count = unsettled_count = queued = pending_count = 0;
}

void begin_layer(const struct crashed *crashed) {
  end_layer();
  current = *crashed;
  at_event = 0;
  for (u32 i = 0; i < current.certain_count; i++) {
    listed_line(current.certain[i].line);
    put_line(current.certain[i].line, current.certain[i].bytes);
  }
  for (u32 i = 0; i < current.open_count; i++) {
    unsettle(current.open[i].line);
    lines[current.open[i].line].open = i;
  }
}

// Puts the bytes of a store that lie in a line into the line's content.
static void put_store(const struct event *store, u32 line, u8 *bytes) {
  u64 offset = store->address - REGION_BASE;
  for (u32 i = 0; i < store->size; i++)
    if ((offset + i) / LINE == line) bytes[(offset + i) % LINE] = (u8)(store->value >> 8 * i);
}

static void add_store(u32 number, u32 event) {
  unsettle(number);
  struct stores *line = &lines[number];
  if (line->count == line->room) {
    line->room = line->room ? 2 * line->room : 8;
    line->events = realloc(line->events, line->room * sizeof *line->events);
    if (!line->events) abort();
  }
  line->events[line->count++] = event;
}

// The flushed stores of a line become durable. An open line keeps its contents, and each takes these stores.
static void make_durable(u32 number) {
  struct stores *line = &lines[number];
  u8 *bytes = durable_image + (u64)number * LINE;
  if (line->open == NONE) {
    for (u32 i = line->durable; i < line->flushed; i++) put_store(&current.events[line->events[i]], number, bytes);
    memcpy(REGION + (u64)number * LINE, bytes, LINE);
  }
  line->durable = line->flushed;
  line->is_queued = 0;
}

static void flush_lines(const struct event *event) {
  u64 first = (event->address - REGION_BASE) / LINE;
  for (u64 number = first; number < first + event->value / LINE; number++) {
    struct stores *line = &lines[number];
    if (!line->is_listed || line->flushed == line->count) continue;
    line->flushed = line->count;
    if (!line->is_queued) line->is_queued = 1, queue[queued++] = (u32)number;
  }
}

void take_event(u32 number) {
  const struct event *event = &current.events[number];
  if (event->kind == STORE) {
    u64 offset = event->address - REGION_BASE;
    for (u64 line = offset / LINE; line <= (offset + event->size - 1) / LINE; line++) add_store((u32)line, number);
  }
  if (event->kind == FLUSH || event->kind == PERSIST) flush_lines(event);
  if (event->kind == FENCE || event->kind == PERSIST)
    while (queued) make_durable(queue[--queued]);
  at_event = number + 1;
}

int changes_what_is_durable(u32 number) {
  const struct event *event = &current.events[number];
  if (event->kind != FENCE && event->kind != PERSIST) return 0;
  if (queued || event->kind == FENCE) return queued > 0;
  u64 first = (event->address - REGION_BASE) / LINE;
  for (u64 line = first; line < first + event->value / LINE; line++)
    if (lines[line].is_listed && lines[line].count > lines[line].durable) return 1;
  return 0;
}

// The contents of a line from one state of its start: the durable stores, then one store more each time.
static void add_contents(struct pending *one, struct stores *line, const struct content *start) {
  u8 bytes[LINE];
  memcpy(bytes, start ? start->bytes : durable_image + (u64)one->line * LINE, LINE);
  u32 done = start ? 0 : line->durable;
  for (u32 upto = done; upto <= line->count; upto++) {
    if (upto > done) put_store(&current.events[line->events[upto - 1]], one->line, bytes);
    if (upto < line->durable) continue;
    if (one->count == MOST_PREFIXES || content_count == MOST_CONTENTS) {
      is_cut_short = 1;
      return;
    }
    // A store that changes nothing makes no new content.
    int is_same = upto > line->durable && !memcmp(contents[content_count - 1].bytes, bytes, LINE);
    struct content *content = is_same ? &contents[content_count - 1] : &contents[content_count++];
    one->count += !is_same;
    *content = start ? *start : (struct content){.upto = 0};
    memcpy(content->bytes, bytes, LINE);
    content->upto = upto;
    content->picks[current.level - 1] = upto > line->durable ? upto : 0;
    content->is_allowed = 1;
  }
}

static double find_contents(u32 number) {
  struct stores *line = &lines[number];
  const struct open_line *open = line->open == NONE ? NULL : &current.open[line->open];
  u32 states = open ? open->count : 1;
  double images = (double)states * (line->count - line->durable + 1);
  if (images < 2 && !open) return 1;
  if (pending_count == MOST_PENDING) {
    is_cut_short = 1;
    return images;
  }
  struct pending *one = &pending[pending_count];
  *one = (struct pending){number, 0, &contents[content_count]};
  for (u32 state = 0; state < states; state++) add_contents(one, line, open ? &open->contents[state] : NULL);
  line->pending = pending_count++;
  return images;
}

double find_pending(void) {
  double images = 1;
  pending_count = content_count = 0;
  is_cut_short = 0;
  u32 kept = 0;
  for (u32 i = 0; i < unsettled_count; i++) {
    struct stores *line = &lines[unsettled[i]];
    if (line->count == line->durable && line->open == NONE) {
      line->is_unsettled = 0;
      continue;
    }
    unsettled[kept++] = unsettled[i];
    images *= find_contents(unsettled[i]);
  }
  unsettled_count = kept;
  return images;
}

struct certain *certain_lines(u32 *count) {
  struct certain *found = malloc((listed_count + 1) * sizeof *found);
  if (!found) abort();
  *count = 0;
  for (u32 i = 0; i < listed_count; i++) {
    if (lines[listed[i]].pending != NONE) continue;
    found[*count].line = listed[i];
    memcpy(found[(*count)++].bytes, durable_image + (u64)listed[i] * LINE, LINE);
  }
  return found;
}

void forget_pending(void) {
  for (u32 i = 0; i < pending_count; i++) lines[pending[i].line].pending = NONE;
  pending_count = 0;
}

struct pending *pending_of(u32 number) {
  const struct stores *line = &lines[number];
  return line->is_listed && line->pending != NONE ? &pending[line->pending] : NULL;
}

u32 lost_stores(const u32 *choice, u32 *stores, u32 most) {
  u32 found = 0;
  for (u32 i = 0; i < pending_count; i++) {
    const struct stores *line = &lines[pending[i].line];
    for (u32 store = pending[i].contents[choice[i]].upto; store < line->count && found < most; store++)
      stores[found++] = line->events[store];
  }
  return found;
}

// Crashes in the recovery of a crash: each recovery from the images that are still possible after what it read.
#include <stdio.h>
#include <stdlib.h>
#include <string.h>

#include "crash.h"

#define MOST_NESTED 20000
#define MOST_SEEN (1u << 20)
#define MOST_BYTES (1ull << 30)

int nested_left_out;
static struct crashed *nested;
static u32 nested_count, nested_taken;
static u64 *seen, used_bytes;

void free_cuts(const struct cut *cut) {
  if (!cut) return;
  free_cuts(cut->before);
  free(cut->picks);
  free((void *)cut);
}

static void free_nested(struct crashed *one) {
  for (u32 i = 0; i < one->open_count; i++) free(one->open[i].contents);
  free(one->open);
  free(one->certain);
  free_cuts(one->before);
}

void begin_nested(void) {
  if (!nested) {
    nested = reserved(MOST_NESTED * sizeof *nested);
    seen = reserved(MOST_SEEN * sizeof *seen);
  }
  for (u32 i = 0; i < nested_count; i++) free_nested(&nested[i]);
  memset(seen, 0, (nested_count ? MOST_SEEN : 0) * sizeof *seen);
  nested_count = nested_taken = 0;
  nested_left_out = 0;
  used_bytes = 0;
}

static int is_new(u64 hash) {
  u32 at = (u32)hash & (MOST_SEEN - 1);
  for (; seen[at]; at = (at + 1) & (MOST_SEEN - 1))
    if (seen[at] == hash) return 0;
  seen[at] = hash;
  return 1;
}

static u64 hash_bytes(u64 hash, const u8 *bytes) {
  for (u32 i = 0; i < LINE; i += 8) {
    u64 word;
    memcpy(&word, bytes + i, 8);
    hash = mixed(hash, word);
  }
  return hash;
}

// What the images that are still possible have in common with those of another crash: equal for equal sets of images.
static u64 hash_of_images(const struct leaf *leaf, const struct certain *certain, u32 count) {
  u64 sum = 0, hash;
  for (u32 i = 0; i < count; i++)
    if (memcmp(certain[i].bytes, initial_region + (u64)certain[i].line * LINE, LINE)) sum += hash_bytes(certain[i].line + 1, certain[i].bytes);
  for (u32 i = 0; i < pending_count; i++) {
    hash = mixed(pending[i].line, 77);
    for (u32 k = 0; k < pending[i].count; k++)
      if (pending[i].contents[k].is_allowed) hash += hash_bytes(7, pending[i].contents[k].bytes);
    sum += mixed(hash, 5);
  }
  return mixed(mixed(sum, (u64)(leaf - leaves)), current.told) | 1;
}

static struct open_line open_line_of(const struct pending *line) {
  struct open_line open = {line->line, 0, malloc(line->count * sizeof *open.contents)};
  if (!open.contents) abort();
  for (u32 i = 0; i < line->count; i++)
    if (line->contents[i].is_allowed) open.contents[open.count++] = line->contents[i];
  used_bytes += line->count * sizeof *open.contents;
  return open;
}

void add_nested(const struct leaf *leaf) {
  if (!leaf->events || current.level >= most_levels) return;
  u32 count;
  struct certain *certain = certain_lines(&count);
  if (nested_count == MOST_NESTED || used_bytes > MOST_BYTES || !is_new(hash_of_images(leaf, certain, count))) {
    nested_left_out |= nested_count == MOST_NESTED || used_bytes > MOST_BYTES;
    free(certain);
    return;
  }
  struct crashed *one = &nested[nested_count++];
  *one = (struct crashed){.events = leaf->events, .count = leaf->event_count, .level = current.level + 1, .told = current.told};
  one->certain = certain, one->certain_count = count;
  one->open = malloc((pending_count + 1) * sizeof *one->open);
  if (!one->open) abort();
  for (u32 i = 0; i < pending_count; i++) one->open[one->open_count++] = open_line_of(&pending[i]);
  one->before = cut_of(NULL);
  used_bytes += count * sizeof *certain;
}

const struct crashed *next_nested(void) { return nested_taken < nested_count ? &nested[nested_taken++] : NULL; }

// ---- where the power was cut

static struct cut *copy_of(const struct cut *cut, u32 more) {
  struct cut *copy = malloc(sizeof *copy);
  if (!copy) abort();
  *copy = *cut;
  copy->picks = malloc((cut->pick_count + more + 1) * sizeof *copy->picks);
  if (!copy->picks) abort();
  if (cut->pick_count) memcpy(copy->picks, cut->picks, cut->pick_count * sizeof *copy->picks);
  copy->before = cut->before ? copy_of(cut->before, more) : NULL;
  return copy;
}

// Without a choice the picks of this crash stay open; they are in the contents of the next one.
const struct cut *cut_of(const u32 *chosen) {
  struct cut here = {at_event, 0, current.before, NULL};
  struct cut *cut = copy_of(&here, chosen ? pending_count : 0);
  u32 level = current.level;
  for (struct cut *one = cut; chosen && one; one = (struct cut *)one->before, level--)
    for (u32 i = 0; i < pending_count; i++) {
      u32 upto = pending[i].contents[chosen[i]].picks[level - 1];
      if (upto) one->picks[one->pick_count++] = (struct pick){pending[i].line, upto};
    }
  return cut;
}

// EVENTS,LINE/UPTO,.. for each crash, from the first one on, with `;` between them.
void write_cut(const struct cut *cut) {
  if (cut->before) write_cut(cut->before), putchar(';');
  printf("%u", cut->events);
  for (u32 i = 0; i < cut->pick_count; i++) printf(",%u/%u", cut->picks[i].line, cut->picks[i].upto);
}

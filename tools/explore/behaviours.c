// The behaviours of crash points, for a reader: an image, what the run from it reads where lines may differ, and how it ends.
#include <stdio.h>
#include <stdlib.h>
#include <string.h>

#include "crash.h"

#define MOST_SEEN (1u << 16)

u32 behaviours_wanted;
double images_here;
static u64 *seen;
static u32 seen_count;

// A run is about to be crashed: its points have no behaviours yet.
void begin_behaviours(void) {
  if (!behaviours_wanted) return;
  if (!seen) seen = reserved(MOST_SEEN * sizeof *seen);
  memset(seen, 0, MOST_SEEN * sizeof *seen);
  seen_count = 0;
}

void keep_reads(struct leaf *leaf) {
  if (!behaviours_wanted) return;
  leaf->reads = malloc((read_count + 1) * sizeof *reads);
  if (!leaf->reads) return;
  memcpy(leaf->reads, reads, read_count * sizeof *reads);
  leaf->read_count = read_count;
}

static int is_seen(u64 hash) {
  u32 at = (u32)hash & (MOST_SEEN - 1);
  for (; seen[at]; at = (at + 1) & (MOST_SEEN - 1))
    if (seen[at] == hash) return 1;
  if (seen_count == MOST_SEEN / 2) return 1;
  seen[at] = hash, seen_count++;
  return 0;
}

// ADDRESS:SIZE:VALUE for each piece of bytes one after another.
static void write_read(const struct read *read, const char **before) {
  u64 mask = read->mask, value = read->value;
  while (mask) {
    u32 from = (u32)__builtin_ctzll(mask), size = (u32)__builtin_ctzll(~(mask >> from));
    u64 own = size >= 8 ? value : value & ((1ull << 8 * size) - 1);
    printf("%s%llu:%u:%llx", *before, REGION_BASE + (unsigned long long)read->line * LINE + from, size, (unsigned long long)own);
    *before = ",";
    mask &= ~(((size >= LINE ? 0 : 1ull << size) - 1) << from);
    value = size >= 8 ? 0 : value >> 8 * size;
  }
}

void note_behaviour(const struct leaf *leaf, const u32 *choice) {
  if (!behaviours_wanted || current.level > 1 || !leaf->reads || leaf->is_undecided || is_seen(mixed(at_event + 1, (u64)(leaf - leaves)) | 1)) return;
  behaviours_wanted--;
  printf("behaviour ending=%s status=%d site=%u path=", ending_word(leaf->ending), leaf->status, leaf->site);
  if (leaf->ending != CUT) write_calls(leaf->path);
  printf(" fails=%d images=%.0f reads=", leaf->is_failing, images_here);
  const char *before = "";
  for (u32 i = 0; i < leaf->read_count; i++)
    if (pending_of(leaf->reads[i].line)) write_read(&leaf->reads[i], &before);
  printf(" at=");
  if (at_event) write_site(&current.events[at_event - 1]);
  printf(" told=%llu limit=%llu input=", (unsigned long long)current.told, (unsigned long long)whole_limit);
  write_crashed_input();
  write_cuts(choice);
  putchar('\n');
}

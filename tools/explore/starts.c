// What the persistent region has before the first run: the bytes that the program gives it, and changes of the bytes of files (pools).
#include <stdio.h>
#include <stdlib.h>
#include <string.h>

#include "inputs.h"

#define MOST_FILES 64
#define MOST_STARTS 65536
#define MOST_CHANGES 256
#define MOST_OFFSETS 8192

struct change {
  u64 at;
  u8 byte;
};

struct start {
  u32 count;
  struct change *changes;
};

static struct file {
  u64 offset, size;
} files[MOST_FILES];
static u32 file_count, start_count = 1; // the first start has no change
static struct start starts[MOST_STARTS];
static u8 *given; // the region's bytes without a change
static u64 read_offsets[MOST_OFFSETS]; // bytes of files that a run reads
static u32 read_offset_count;
u32 current_start;

// OFFSET:SIZE,.. of the files in the region.
void read_files(const char *text) {
  while (text && *text && file_count < MOST_FILES) {
    char *end;
    struct file *file = &files[file_count];
    file->offset = strtoull(text, &end, 10);
    file->size = *end == ':' ? strtoull(end + 1, &end, 10) : 0;
    if (file->size && file->offset + file->size <= hippo_program_region) file_count++;
    text = *end ? end + 1 : end;
  }
  if (!file_count) return;
  given = reserved(hippo_program_region);
  memcpy(given, initial_region, hippo_program_region);
}

int has_files(void) { return file_count > 0; }

// The region must be as before a run.
void set_start(u32 start) {
  const struct start *old = &starts[current_start], *now = &starts[start];
  for (u32 i = 0; i < old->count; i++) initial_region[old->changes[i].at] = REGION[old->changes[i].at] = given[old->changes[i].at];
  for (u32 i = 0; i < now->count; i++) initial_region[now->changes[i].at] = REGION[now->changes[i].at] = now->changes[i].byte;
  current_start = start;
}

static u32 added_start(const struct change *changes, u32 count) {
  if (!count || start_count == MOST_STARTS) return 0;
  struct change *copy = malloc(count * sizeof *copy);
  if (!copy) abort();
  memcpy(copy, changes, count * sizeof *copy);
  starts[start_count] = (struct start){count, copy};
  return start_count++;
}

// Forgets the last start, which nothing keeps.
void forget_start(u32 start) {
  if (!start || start + 1 != start_count) return;
  if (start == current_start) set_start(0);
  free(starts[--start_count].changes);
}

static u32 put(struct change *changes, u32 count, u64 at, u8 byte) {
  u32 i = 0;
  while (i < count && changes[i].at != at) i++;
  if (i == count && (count == MOST_CHANGES || given[at] == byte)) return count;
  changes[i] = (struct change){at, byte};
  return i == count ? count + 1 : count;
}

static const struct file *file_with(u64 at) {
  for (u32 i = 0; i < file_count; i++)
    if (at >= files[i].offset && at - files[i].offset < files[i].size) return &files[i];
  return NULL;
}

// Runs the input to find the bytes of files that the run reads.
void look_at_reads(void) {
  hippo_hook_state.is_tracking = 1;
  run_program(0);
  hippo_hook_state.is_tracking = 0;
  restore_region(initial_region);
  forget_edges();
  read_offset_count = 0;
  for (u32 i = 0; i < read_count; i++)
    for (u64 mask = reads[i].mask; mask && read_offset_count < MOST_OFFSETS; mask &= mask - 1) {
      u64 at = (u64)reads[i].line * LINE + (u64)__builtin_ctzll(mask);
      if (file_with(at)) read_offsets[read_offset_count++] = at;
    }
}

// A byte of a file, mostly one that was read.
static u64 any_offset(void) {
  if (read_offset_count && random_below(8)) return read_offsets[random_below(read_offset_count)];
  const struct file *file = &files[random_below(file_count)];
  return file->offset + random_number() % file->size;
}

static u32 change_piece(struct change *changes, u32 count) {
  u64 at = any_offset(), value = 0;
  const struct file *file = file_with(at);
  u32 size = 1u << random_below(4);
  at -= (at - file->offset) % size;
  if (size > file->offset + file->size - at) size = 1;
  memcpy(&value, initial_region + at, size);
  switch (random_below(4)) {
  case 0: value ^= 1ull << random_below(8 * size); break;
  case 1: value += random_below(9) - 4ull; break;
  case 2: memcpy(&value, initial_region + file->offset + random_number() % (file->size - size + 1), size); break;
  default: value = (u64)draw_number();
  }
  for (u32 i = 0; i < size; i++) count = put(changes, count, at + i, (u8)(value >> 8 * i));
  return count;
}

// A start that is not far from another one.
u32 mutated_start(u32 from) {
  static struct change changes[MOST_CHANGES];
  u32 count = starts[from].count;
  if (count) memcpy(changes, starts[from].changes, count * sizeof *changes);
  for (u32 left = 1 + random_below(3); left > 0; left--) count = change_piece(changes, count);
  return added_start(changes, count);
}

// A start with half of the changes or fewer, that still shows the key with these numbers; the same start if there is none.
u32 shrink_start(u64 hash, const i64 *numbers, u32 count) {
  static struct change changes[MOST_CHANGES];
  u32 best = current_start;
  for (u32 size = starts[best].count; best && size >= 1; size /= 2)
    for (u32 at = 0; at + size <= starts[best].count;) {
      u32 left = starts[best].count - size;
      memcpy(changes, starts[best].changes, at * sizeof *changes);
      memcpy(changes + at, starts[best].changes + at + size, (left - at) * sizeof *changes);
      u32 smaller = added_start(changes, left);
      if (left && !smaller) return best;
      set_start(smaller);
      if (shows_key(hash, numbers, count)) {
        best = smaller;
      } else {
        set_start(best);
        forget_start(smaller);
        at += size;
      }
      if (!best) return 0;
    }
  return best;
}

// ` start=OFFSET:BYTE,..` where bytes are changed.
void write_start(void) {
  const struct start *start = &starts[current_start];
  for (u32 i = 0; i < start->count; i++) printf("%s%llu:%u", i ? "," : " start=", (unsigned long long)start->changes[i].at, start->changes[i].byte);
}

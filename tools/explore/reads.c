// What a run from an image reads of the region before it writes it: nothing else of the image can change the run.
#include "engine.h"

struct read *reads;
u32 read_count;
static u64 *known; // for each line the bytes that the run has read or written
static u32 *known_epoch;

void make_reads(void) {
  u64 count = hippo_program_region / LINE;
  known = reserved(count * sizeof *known);
  known_epoch = reserved(count * sizeof *known_epoch);
  reads = reserved(MOST_READS * sizeof *reads);
}

void begin_reads(void) { read_count = 0; }

static u64 *known_of(u32 line) {
  if (known_epoch[line] != epoch) known_epoch[line] = epoch, known[line] = 0;
  return &known[line];
}

static u64 mask_of(u32 start, u32 size) { return (size == LINE ? ~0ull : (1ull << size) - 1) << start; }

static void read_in_line(u32 line, u64 mask) {
  u64 *have = known_of(line), fresh = mask & ~*have;
  if (!fresh) return;
  if (read_count == MOST_READS) hippo_hook_end(FULL, 0);
  *have |= fresh;
  u64 value = 0;
  u32 count = 0;
  for (u64 left = fresh; left; left &= left - 1) value |= (u64)REGION[(u64)line * LINE + __builtin_ctzll(left)] << 8 * count++;
  reads[read_count++] = (struct read){line, fresh, value};
}

void hippo_hook_track(u64 address, u32 size) {
  u64 offset = address - REGION_BASE;
  while (size) {
    u32 start = offset % LINE, count = size < LINE - start ? size : LINE - start;
    read_in_line(offset / LINE, mask_of(start, count));
    offset += count, size -= count;
  }
}

void read_stored(u64 offset, u32 size) {
  while (size) {
    u32 start = offset % LINE, count = size < LINE - start ? size : LINE - start;
    *known_of(offset / LINE) |= mask_of(start, count);
    offset += count, size -= count;
  }
}

// The search for inputs: mutations of lists of numbers, numbers that are drawn where an input ends, and what makes an input worth keeping.
#include <stdio.h>
#include <stdlib.h>
#include <string.h>

#include "inputs.h"

#define MOST_KEYS (1u << 18)
#define MOST_PIECE 16
#define CHANGE 4

struct kept *corpus;
u32 corpus_count, most_numbers = 200;
i64 least_number = INT64_MIN, greatest_number = INT64_MAX;
struct key *keys;
u32 key_count, blocks_ran;

static u32 *key_table;
static u8 seen_edges[MOST_EDGES];
static const u32 KEY_MASK = 2 * MOST_KEYS - 1;

void make_inputs(void) {
  corpus = reserved(MOST_KEPT * sizeof *corpus);
  keys = reserved(MOST_KEYS * sizeof *keys);
  key_table = reserved(2ull * MOST_KEYS * sizeof *key_table);
}

void set_input(const i64 *numbers, u32 count) {
  memmove(input.numbers, numbers, count * sizeof *numbers);
  input.count = count;
}

void keep_input(void) {
  if (corpus_count == MOST_KEPT) return;
  u32 count = input.taken;
  i64 *numbers = malloc((count + 1) * sizeof *numbers);
  if (!numbers) return;
  memcpy(numbers, input.numbers, count * sizeof *numbers);
  corpus[corpus_count++] = (struct kept){numbers, count, last_run.events, current_start, 0, last_run.ending == STOP};
}

void write_numbers(const i64 *numbers, u32 count) {
  for (u32 i = 0; i < count; i++) printf(i ? ",%lld" : "%lld", (long long)numbers[i]);
}

void write_calls(u32 path) {
  for (const char *before = ""; path > ROOT; path = path_parent(path), before = ",") printf("%s%u", before, path_call(path));
}

void write_key(const struct key *key) {
  static const char *const KINDS[] = {"flush", "fence", "both"};
  printf("report missing=%s store=%u path=", KINDS[key->missing], key->store);
  write_calls(key->path);
  if (key->missing == MISSING_FENCE) printf(" flush=%u", key->flush);
  printf(" input=");
}

// ---- what is new

// A count of an edge as one bit: 1, 2, 3, 4 to 7, 8 to 15, 16 to 31, 32 to 127, and more.
static u8 bucket(u8 count) {
  static const u8 FROM[] = {1, 2, 3, 4, 8, 16, 32, 128};
  u32 number = 0;
  while (number < 7 && count >= FROM[number + 1]) number++;
  return (u8)(1u << number);
}

int new_edges(void) {
  int found = 0;
  for (u64 at = 0; at < hippo_program_edges; at += 8) {
    u64 eight;
    memcpy(&eight, hippo_hook_edges + at, 8);
    if (!eight) continue;
    for (u64 edge = at; edge < at + 8; edge++) {
      if (!hippo_hook_edges[edge]) continue;
      u8 bit = bucket(hippo_hook_edges[edge]);
      found |= !(seen_edges[edge] & bit);
      seen_edges[edge] |= bit;
    }
  }
  forget_edges();
  return found;
}

void forget_edges(void) { memset(hippo_hook_edges, 0, hippo_program_edges); }

u64 report_hash(const struct report *report) {
  const struct event *store = &events[report->store];
  u64 flush = report->missing == MISSING_FENCE ? events[report->flush].site + 1 : 0;
  return mixed(mixed(mixed(store->site, path_key(store->path)), report->missing), flush);
}

void note_report(const struct report *report) {
  u64 hash = report_hash(report);
  u32 at = (u32)hash & KEY_MASK;
  for (; key_table[at]; at = (at + 1) & KEY_MASK)
    if (keys[key_table[at] - 1].hash == hash) return;
  if (key_count == MOST_KEYS) return;
  const struct event *store = &events[report->store];
  u32 flush = report->missing == MISSING_FENCE ? events[report->flush].site : ~0u;
  keys[key_count++] = (struct key){hash, report->missing, store->site, store->path, flush};
  key_table[at] = key_count;
}

// Forgets the keys from one on. They are the last ones that were entered, so no other key lies behind their places.
void forget_keys(u32 first) {
  while (key_count > first) {
    u32 at = (u32)keys[--key_count].hash & KEY_MASK;
    while (key_table[at] != key_count + 1) at = (at + 1) & KEY_MASK;
    key_table[at] = 0;
  }
}

// ---- new numbers

static i64 in_range(i64 number) {
  if (number >= least_number && number <= greatest_number) return number;
  u64 width = (u64)greatest_number - (u64)least_number + 1;
  return (i64)((u64)least_number + (width ? random_number() % width : random_number()));
}

static i64 constant(void) {
  if (!hippo_program_constant_count) return random_below(6);
  i64 near = (i64)random_below(3) - 1;
  return (i64)((u64)hippo_program_constants[random_below((u32)hippo_program_constant_count)] + (u64)near);
}

static i64 any_number(void) {
  u32 kind = random_below(16);
  if (kind < 6) return random_below(6);
  if (kind < 9) return random_below(32);
  if (kind < 12 && input.count) return input.numbers[random_below(input.count)];
  if (kind < 14) return constant();
  if (kind == 14) return random_below(512);
  return random_below(4) ? (i64)(random_number() >> (random_below(60) + 3)) : -(i64)random_below(100);
}

i64 draw_number(void) { return in_range(any_number()); }

// ---- mutations

static void insert(u32 at, const i64 *piece, u32 count) {
  if (input.count + count > most_numbers) return;
  memmove(input.numbers + at + count, input.numbers + at, (input.count - at) * sizeof *piece);
  memcpy(input.numbers + at, piece, count * sizeof *piece);
  input.count += count;
}

static void insert_drawn(u32 at) {
  i64 piece[CHANGE];
  u32 count = 1 + random_below(CHANGE);
  for (u32 i = 0; i < count; i++) piece[i] = draw_number();
  insert(at, piece, count);
}

static void delete_some(u32 at) {
  u32 count = 1 + random_below(CHANGE);
  if (at + count > input.count) return;
  memmove(input.numbers + at, input.numbers + at + count, (input.count - at - count) * sizeof *input.numbers);
  input.count -= count;
}

static void repeat_piece(u32 at) {
  i64 piece[MOST_PIECE];
  u32 from = random_below(input.count), count = 1 + random_below(MOST_PIECE);
  if (from + count > input.count) count = input.count - from;
  memcpy(piece, input.numbers + from, count * sizeof *piece);
  insert(at, piece, count);
}

static void take_from_another(u32 at) {
  const struct kept *other = &corpus[random_below(corpus_count)];
  if (!corpus_count || !other->count) return;
  u32 from = random_below(other->count), count = 1 + random_below(other->count - from);
  if (at + count > most_numbers) return;
  memcpy(input.numbers + at, other->numbers + from, count * sizeof *input.numbers);
  if (at + count > input.count) input.count = at + count;
}

static void change_once(void) {
  if (!input.count) {
    insert_drawn(0);
    return;
  }
  u32 at = random_below(input.count);
  i64 *number = &input.numbers[at];
  switch (random_below(9)) {
  case 0:
  case 1: *number = draw_number(); break;
  case 2: *number = in_range((i64)((u64)*number + random_below(9) - CHANGE)); break;
  case 3: insert_drawn(at); break;
  case 4: delete_some(at); break;
  case 5: repeat_piece(at); break;
  case 6: input.numbers[0] = in_range((i64)((u64)input.numbers[0] + 1 + random_below(12))); break;
  case 7: take_from_another(at); break;
  default: input.count = at + 1;
  }
}

void mutate(void) {
  for (u32 left = 1u << random_below(4); left > 0; left--) change_once();
}

// The command explore: inputs are searched, and crashes of the kept ones are tried, within one budget.
#include <stdio.h>
#include <stdlib.h>
#include <string.h>
#include <time.h>

#include "crash.h"

#define BATCH 64
#define MOST_SHRINKING 4000 // runs for one report
#define SEARCH_FIRST 4      // a quarter of the budget
#define SLICE 20            // a part of the budget for the crashes of one input

static u32 reports_shown, trapped_inputs, silent_inputs, searched, most_taken;
static u64 shrinking;       // what was spent to make inputs smaller
static int wants_progress;
static double last_progress;

static double wall_time(void) {
  struct timespec time;
  clock_gettime(CLOCK_MONOTONIC, &time);
  return (double)time.tv_sec + (double)time.tv_nsec * 1e-9;
}

static u32 blocks_that_ran(void) {
  u32 count = 0;
  for (u64 i = 0; i < hippo_program_blocks; i++) count += hippo_hook_ran[i];
  return count;
}

static void say_progress(void) {
  if (!wants_progress || wall_time() - last_progress < 0.2) return;
  last_progress = wall_time();
  printf("progress inputs=%u kept=%u blocks=%u reports=%u points=%llu failures=%d left=%.0f\n", searched, corpus_count, blocks_that_ran(),
         reports_shown, (unsigned long long)points_tried, failures_found, 100.0 - 100.0 * (double)spent() / (double)whole_budget);
  fflush(stdout);
}

// Shows each new report with an input that was made smaller. At most a fifth of the budget goes into that.
static void show_reports(const i64 *numbers, u32 count) {
  static i64 smaller[MOST_NUMBERS];
  for (; reports_shown < key_count; reports_shown++) {
    const struct key *key = &keys[reports_shown];
    u64 before = spent();
    u32 left = count;
    memcpy(smaller, numbers, count * sizeof *numbers);
    u32 start = current_start;
    if (shrinking < whole_budget / 5) {
      left = shrink_input(key->hash, smaller, count, MOST_SHRINKING);
      shrink_start(key->hash, smaller, left);
    }
    shrinking += spent() - before;
    write_key(key);
    write_numbers(smaller, left);
    write_start();
    putchar('\n');
    set_start(start);
  }
  fflush(stdout);
}

static void show_traps(void) {
  if (last_run.ending == STOP || last_run.ending == INPUT) return;
  trapped_inputs++;
  static u8 *seen;
  if (!seen) seen = calloc(hippo_program_sites + 1, 1);
  if (!seen || seen[last_run.site]) return;
  seen[last_run.site] = 1;
  printf("trapped ending=%s site=%u path=", ending_word(last_run.ending), last_run.site);
  if (last_run.ending != CUT) write_calls(last_run.path);
  printf(" input=");
  write_numbers(input.numbers, input.taken);
  write_start();
  putchar('\n');
}

// Runs the input, keeps it if it is new in some way, and shows what it reports.
static void try_input(int must_keep) {
  static i64 numbers[MOST_NUMBERS];
  u32 known = key_count;
  run_program(1);
  restore_region(initial_region);
  searched++;
  if (input.taken > most_taken) most_taken = input.taken;
  if (last_run.ending == ASSUMED) {
    silent_inputs++;
    forget_edges();
    forget_keys(known);
    return;
  }
  int is_new = new_edges() | must_keep;
  if (!is_new && key_count == known) return;
  show_traps();
  keep_input();
  u32 count = input.taken;
  memcpy(numbers, input.numbers, count * sizeof *numbers);
  show_reports(numbers, count);
}

static void search_batch(void) {
  for (u32 i = 0; i < BATCH && !is_over(); i++) {
    u32 newest = corpus_count < 8 ? corpus_count : 8;
    const struct kept *from = &corpus[random_below(2) ? random_below(corpus_count) : corpus_count - 1 - random_below(newest)];
    set_input(from->numbers, from->count);
    u32 known = corpus_count, start = 0;
    if (has_files() && random_below(3) == 0) {
      if (random_below(4) == 0) set_start(from->start), look_at_reads();
      start = mutated_start(from->start);
    }
    set_start(start ? start : from->start);
    if (!start || random_below(2)) mutate();
    try_input(0);
    if (corpus_count == known) forget_start(start);
  }
}

// The input whose crashes are tried next: a given one, then mostly new ones.
static struct kept *next_to_crash(u32 given) {
  for (u32 i = 0; i < given; i++)
    if (!corpus[i].is_explored) return &corpus[i];
  for (u32 i = corpus_count; i-- > 0;)
    if (!corpus[i].is_explored && (i + 4 >= corpus_count || random_below(3) == 0)) return &corpus[i];
  return NULL;
}

static void crash_slice(struct kept *kept, u64 part) {
  u64 before = stop_at, slice = spent() + whole_budget / part;
  kept->is_explored = 1;
  stop_at = slice < before ? slice : before;
  set_start(kept->start);
  explore_crashes(kept->numbers, kept->count);
  reports_shown = key_count; // those of runs from images were shown with their images
  stop_at = before;
}

// Searches and crashes in turn. The crashes of the given inputs come first, since their authors chose these. A program that reads no
// number has one run.
static void work(u32 given) {
  u64 next = 0;
  while (!is_over() && corpus_count) {
    struct kept *kept = most_levels && spent() >= next ? next_to_crash(given) : NULL;
    if (kept) {
      crash_slice(kept, kept < corpus + given ? SEARCH_FIRST : SLICE);
      next = spent() + (kept < corpus + given && next_to_crash(given) && next_to_crash(given) < corpus + given ? 0 : whole_budget / SLICE / 2);
    }
    if (!most_taken && !has_files() && !kept) return;
    if (most_taken || has_files()) search_batch();
    say_progress();
  }
}

static void write_summary(u32 given_blocks) {
  for (u32 i = 0; i < corpus_count; i++) {
    if (!corpus[i].ends) continue; // a corpus has no input that others would run up to their limit
    printf("kept input=");
    write_numbers(corpus[i].numbers, corpus[i].count);
    set_start(corpus[i].start);
    write_start();
    putchar('\n');
  }
  printf("missed blocks=");
  const char *before = "";
  for (u64 i = 0; i < hippo_program_blocks; i++)
    if (!hippo_hook_ran[i]) printf("%s%llu", before, (unsigned long long)i), before = ",";
  printf("\nsummary runs=%llu inputs=%u kept=%u blocks=%u given_blocks=%u all_blocks=%llu trapped=%u silent=%u points=%llu images=%.0f behaviours=%llu "
         "failing=%llu large=%llu left=%llu all_points=%llu\n",
         (unsigned long long)run_count, searched, corpus_count, blocks_that_ran(), given_blocks, (unsigned long long)hippo_program_blocks,
         trapped_inputs, silent_inputs, (unsigned long long)points_tried, images_tried, (unsigned long long)behaviours,
         (unsigned long long)failing_behaviours, (unsigned long long)points_large, (unsigned long long)points_left,
         (unsigned long long)all_points);
  fflush(stdout);
}

// A limit for the runs of the search: several times what the longest given input takes.
static u64 limit_for_search(u64 turns) {
  u64 most = 8 * turns + 20000;
  return most < turn_limit ? most : turn_limit;
}

// Runs the inputs, and keeps those that are new in some way.
void replay_command(i64 **inputs, const u32 *counts, u32 given) {
  on_report = note_report;
  for (u32 i = 0; i < given; i++) {
    set_input(inputs[i], counts[i]);
    try_input(0);
  }
  for (u32 i = 0; i < corpus_count && most_levels; i++) crash_slice(&corpus[i], corpus_count);
  write_summary(blocks_that_ran());
}

// The first inputs are given; the others come from a corpus, and are kept if they are new in some way.
void explore_command(i64 **inputs, const u32 *counts, u32 count, u32 given, int progress) {
  u64 turns = 0;
  u32 given_blocks = 0;
  wants_progress = progress;
  on_report = note_report;
  for (u32 i = 0; i < count; i++) {
    set_input(inputs[i], counts[i]);
    try_input(i < given);
    if (last_run.turns > turns) turns = last_run.turns;
    if (i < given) given_blocks = blocks_that_ran();
  }
  turn_limit = limit_for_search(turns);
  input.draw = draw_number;
  input.most = most_numbers;
  work(given);
  write_summary(given_blocks);
}

// What may be spent: runs, so that the same words give the same answer, or processor time. Random numbers come from a seed.
#define _GNU_SOURCE
#include <time.h>

#include "engine.h"

#define TURNS_BETWEEN_LOOKS 20000
#define RUNS_BETWEEN_LOOKS 32

u64 whole_budget, stop_at;
static u64 random_state, last_look, runs_at_look, turns_since;
static int counts_runs;
volatile sig_atomic_t is_interrupted;

static u64 processor_time(void) {
  struct timespec time;
  clock_gettime(CLOCK_PROCESS_CPUTIME_ID, &time);
  return time.tv_sec * 1000000000ull + time.tv_nsec;
}

void make_budget(u64 runs, double seconds, u64 seed) {
  counts_runs = runs != 0;
  whole_budget = stop_at = counts_runs ? runs : (u64)(seconds * 1e9);
  random_state = seed * 0x9e3779b97f4a7c15ull + 0x2545f4914f6cdd1dull;
  for (int i = 0; i < 8; i++) random_number();
}

u64 spent(void) { return counts_runs ? run_count : processor_time(); }

// The time is looked at only now and then, since that takes as long as a short run.
int is_over(void) {
  if (is_interrupted) return 1;
  if (counts_runs) return run_count >= stop_at;
  turns_since += last_run.turns;
  if (run_count - runs_at_look >= RUNS_BETWEEN_LOOKS || turns_since >= TURNS_BETWEEN_LOOKS) {
    last_look = processor_time();
    runs_at_look = run_count;
    turns_since = 0;
  }
  return last_look >= stop_at;
}

u64 random_number(void) {
  random_state ^= random_state << 13;
  random_state ^= random_state >> 7;
  random_state ^= random_state << 17;
  return random_state * 0x2545f4914f6cdd1dull;
}

u32 random_below(u32 limit) { return limit ? (u32)((random_number() >> 32) * limit >> 32) : 0; }

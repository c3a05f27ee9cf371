// Runs from images that fail, by their causes: where the run ended, and the smallest set of stores whose loss makes it end there.
#include <stdio.h>
#include <stdlib.h>
#include <string.h>

#include "crash.h"

#define MOST_CAUSES 4096
#define MOST_OF_ONE 64   // behaviours that end in one place whose causes are looked for
#define MOST_RUNS 400    // to make one smaller
#define MOST_SITES 256

#define MOST_SHORTENING 300 // inputs that are tried to shorten one

// A cause that was found, and an input that shows it.
struct failure {
  u64 cause;
  i64 *numbers;
  u32 count, start;
};

int failures_found, is_wanted_found;
static struct failure failures[MOST_CAUSES];
static int failures_shortened;
static u64 wanted_cause; // 0: all causes are wanted
static int is_showing;
static const i64 *crashed_numbers;
static u32 crashed_count;
static int crashed_status;
static u64 places[MOST_CAUSES];
static u32 place_count, place_uses[MOST_CAUSES];

// The causes stay known from one input to the next.
void begin_failures(const i64 *numbers, u32 count, int status) { crashed_numbers = numbers, crashed_count = count, crashed_status = status; }

// A run that reads past its input has left the recovery behind.
int fails(const struct run *run) {
  if (run->ending == STOP) return checks_status && run->status != crashed_status;
  return run->ending != INPUT && run->ending != FULL && run->ending != ASSUMED;
}

static u64 place_of(const struct run *run) {
  u64 place = mixed(run->ending, run->ending == STOP ? (u64)run->status : run->site);
  return mixed(place, run->ending == CUT ? 0 : path_key(run->path));
}

// Whether causes of failures at this place are still looked for.
static int is_wanted(u64 place) {
  u32 at = 0;
  while (at < place_count && places[at] != place) at++;
  if (at == MOST_CAUSES) return 0;
  if (at == place_count) places[place_count++] = place, place_uses[at] = 0;
  return place_uses[at]++ < MOST_OF_ONE;
}

static int ends_there(const u32 *chosen, u64 place, u32 *runs) {
  if (*runs == 0) return 0;
  --*runs;
  run_image(chosen);
  return fails(&last_run) && place_of(&last_run) == place;
}

// Gives each line its newest content with which the run still fails at the place.
static void lose_less(u32 *chosen, u64 place) {
  u32 runs = MOST_RUNS;
  for (int again = 1; again && runs;) {
    again = 0;
    for (u32 i = 0; i < pending_count && runs; i++) {
      u32 before = chosen[i], least = pending[i].count > before + 8 ? pending[i].count - 8 : before + 1;
      for (u32 next = pending[i].count - 1; next >= least && chosen[i] == before; next--) {
        chosen[i] = next;
        if (!ends_there(chosen, place, &runs)) chosen[i] = before;
      }
      again |= chosen[i] != before;
    }
  }
}

static int by_site(const void *a, const void *b) {
  u32 one = *(const u32 *)a, other = *(const u32 *)b, site = current.events[one].site, other_site = current.events[other].site;
  return site != other_site ? (site > other_site) - (site < other_site) : (one > other) - (one < other);
}

// The lost stores, the first one of each site.
static u32 lost_once(const u32 *chosen, u32 *stores) {
  u32 count = lost_stores(chosen, stores, MOST_SITES), kept = 0;
  qsort(stores, count, sizeof *stores, by_site);
  for (u32 i = 0; i < count; i++)
    if (!kept || current.events[stores[kept - 1]].site != current.events[stores[i]].site) stores[kept++] = stores[i];
  return kept;
}

// Where nothing is lost, the site of the event before the crash stands for the cause.
static u64 cause_of(u64 place, const u32 *stores, u32 count) {
  u64 cause = mixed(place, current.level);
  for (u32 i = 0; i < count; i++) cause = mixed(cause, current.events[stores[i]].site + 1);
  if (!count && at_event) cause = mixed(cause, current.events[at_event - 1].site + 1000003ull);
  return cause | 1;
}

static int is_known_cause(u64 cause) {
  for (int i = 0; i < failures_found; i++)
    if (failures[i].cause == cause) return 1;
  return 0;
}

// Whether the cause is new; notes it with its input.
static int is_new_cause(u64 cause) {
  if (is_known_cause(cause) || failures_found == MOST_CAUSES) return 0;
  i64 *numbers = malloc((crashed_count + 1) * sizeof *numbers);
  if (!numbers) return 0;
  memcpy(numbers, crashed_numbers, crashed_count * sizeof *numbers);
  failures[failures_found++] = (struct failure){cause, numbers, crashed_count, current_start};
  return 1;
}

void write_cuts(const u32 *chosen) {
  const struct cut *cut = cut_of(chosen);
  printf(" cuts=");
  write_cut(cut);
  free_cuts(cut);
}

void write_crashed_input(void) {
  write_numbers(crashed_numbers, crashed_count);
  write_start();
}

// SITE/CALL/CALL.. of an event.
void write_site(const struct event *event) {
  printf("%u", event->site);
  for (u32 path = event->path; path > ROOT; path = path_parent(path)) printf("/%u", path_call(path));
}

// The last store before the crash; the last event if there is none.
static const struct event *last_store(void) {
  for (u32 number = at_event; number-- > 0;)
    if (current.events[number].kind == STORE) return &current.events[number];
  return &current.events[at_event - 1];
}

static void write_failure(const struct leaf *leaf, u64 cause, const u32 *chosen, const u32 *stores, u32 count) {
  printf("failure cause=%llx level=%u ending=%s status=%d site=%u path=", (unsigned long long)cause, current.level, ending_word(leaf->ending),
         leaf->status, leaf->site);
  if (leaf->ending != CUT) write_calls(leaf->path);
  printf(" at=");
  if (at_event) write_site(last_store());
  printf(" lost=");
  for (u32 i = 0; i < count; i++) {
    const struct event *store = &current.events[stores[i]];
    printf("%s%llu:%u:", i ? "," : "", (unsigned long long)store->address, store->size);
    write_site(store);
  }
  printf(" told=%llu limit=%llu input=", (unsigned long long)current.told, (unsigned long long)whole_limit);
  write_crashed_input();
  write_cuts(chosen);
  putchar('\n');
  fflush(stdout);
}

// Whether the smaller image, whose run the quick limit may have cut, would be shown but does not fail.
static int is_cut_too_early(const u32 *smaller, u64 cause) {
  if (last_run.ending != CUT || turn_limit >= whole_limit) return 0;
  if (wanted_cause ? cause != wanted_cause || !is_showing : is_known_cause(cause)) return 0;
  return !is_endless(smaller);
}

void note_failure(const struct leaf *leaf, const u32 *chosen) {
  static u32 smaller[MOST_PENDING], stores[MOST_SITES];
  struct run run = last_run;
  u64 place = place_of(&run);
  if (!wanted_cause && !is_wanted(place)) return;
  memcpy(smaller, chosen, pending_count * sizeof *smaller);
  lose_less(smaller, place);
  last_run = run;
  u32 count = lost_once(smaller, stores);
  u64 cause = cause_of(place, stores, count);
  if (is_cut_too_early(smaller, cause)) {
    if (wanted_cause) return;
    memcpy(smaller, chosen, pending_count * sizeof *smaller);
    count = lost_once(smaller, stores);
    cause = cause_of(place, stores, count);
  }
  last_run = run;
  is_wanted_found |= cause == wanted_cause;
  if (wanted_cause ? cause == wanted_cause && is_showing : is_new_cause(cause)) write_failure(leaf, cause, smaller, stores, count);
}

void note_refusal(const u32 *chosen) {
  if (wanted_cause) return;
  printf("refused ending=%s status=%d site=%u path=", ending_word(last_run.ending), last_run.status, last_run.site);
  if (last_run.ending != CUT) write_calls(last_run.path);
  printf(" told=%llu limit=%llu input=", (unsigned long long)current.told, (unsigned long long)whole_limit);
  write_crashed_input();
  write_cuts(chosen);
  putchar('\n');
}

// ---- shorter inputs

static int still_fails(const i64 *numbers, u32 count) {
  is_wanted_found = 0;
  try_crashes(numbers, count, 1);
  return is_wanted_found;
}

static int fails_without(const struct failure *failure, u32 at, u32 removed, i64 *shorter) {
  u32 left = failure->count - removed;
  memcpy(shorter, failure->numbers, at * sizeof *shorter);
  memcpy(shorter + at, failure->numbers + at + removed, (left - at) * sizeof *shorter);
  if (still_fails(shorter, left)) return 1;
  if (!at || shorter[0] < 2) return 0;
  shorter[0]--; // it may count the operations
  return still_fails(shorter, left);
}

// Removes pieces of the input as long as the cause is found; whether any was removed.
static int shorten(struct failure *failure) {
  static i64 shorter[MOST_NUMBERS];
  u32 before = failure->count, tries = MOST_SHORTENING;
  for (u32 size = failure->count > 1 ? failure->count / 2 : 1; size >= 1; size /= 2)
    for (u32 at = 0; at + size <= failure->count && tries && !is_over();) {
      tries--;
      if (fails_without(failure, at, size, shorter)) {
        failure->count -= size;
        memcpy(failure->numbers, shorter, failure->count * sizeof *shorter);
      } else {
        at += size;
      }
    }
  return failure->count < before;
}

void shorten_failures(void) {
  for (; failures_shortened < failures_found && !is_over(); failures_shortened++) {
    struct failure *failure = &failures[failures_shortened];
    wanted_cause = failure->cause;
    set_start(failure->start);
    if (shorten(failure)) {
      is_showing = 1;
      still_fails(failure->numbers, failure->count);
      is_showing = 0;
    }
    wanted_cause = 0;
  }
}

void note_reports(u32 first, const u32 *chosen) {
  if (wanted_cause) return;
  for (u32 i = first; i < key_count; i++) {
    write_key(&keys[i]);
    write_crashed_input();
    printf(" told=%llu limit=%llu", (unsigned long long)current.told, (unsigned long long)whole_limit);
    write_cuts(chosen);
    putchar('\n');
  }
  fflush(stdout);
}

// All images that crashes of a run may leave, by what the run from an image reads: each behaviour is run once.
#include <stdlib.h>
#include <string.h>

#include "crash.h"

#define ALL 0xffffffffu
#define MOST_IMAGES 1e200 // a greater number is counted as this one
#define TIMES 8         // what a run from an image may take at first
#define TIMES_QUIET 200 // what a recovery may take: it may find much more than the run itself found
#define TURNS_FOR_ANY 4000000ull // what any recovery may take besides, and for each byte of the region
#define TURNS_FOR_A_BYTE 16ull
#define MOST_ENDLESS 16              // endless runs that are followed for one crashed run
#define MOST_ENDLESS_TURNS 4000000000ull // the turns of all endless runs
#define FIRST_ROUND 64 // about the number of points that are tried first

u32 most_levels = 2, sample_count = 2;
u64 greatest_limit;
int checks_status;
u64 first_point = 0, last_point = ~0ull;
double images_tried;
u64 points_tried, points_left, points_large, all_points, behaviours, failing_behaviours;

static u32 choice[MOST_PENDING];
static int from_newest;   // whether lines take their newest contents first
static int was_limited;   // a line has more contents than the number of deviations allows
static int is_stopped;    // the budget is spent, or there is no room
static u8 *is_done;       // the points that were tried whole
static u32 *quiet, quiet_count; // the events before each read of the crashed run that begins an operation
static int tries_outputs; // the prints after a crash are compared with those of runs without one
static int looks_for_one; // nothing is counted, and the first sight of the wanted cause ends it
static u32 *printed, printed_count; // the events before each number that the crashed run prints
static u32 prints_here;             // how many of these are printed before the crash
static u8 *is_print_done;           // the prints before which the crash was tried whole
u64 whole_limit;          // a run from an image that takes more turns does not end
static u64 endless_turns;
static u32 endless_runs;

void make_crashes(void) {
  make_trie();
  make_layers();
}

void run_image(const u32 *chosen) {
  set_crash_input();
  for (u32 i = 0; i < pending_count; i++) memcpy(REGION + (u64)pending[i].line * LINE, pending[i].contents[chosen[i]].bytes, LINE);
  if (hippo_program_prints_address) *(i64 *)hippo_program_prints_address = (i64)current.told;
  hippo_hook_state.is_tracking = 1;
  run_program(1);
  hippo_hook_state.is_tracking = 0;
  forget_edges();
  if (hippo_program_prints_address) *(i64 *)hippo_program_prints_address = 0;
  restore_region(durable_image);
  for (u32 i = 0; i < pending_count; i++)
    memcpy(REGION + (u64)pending[i].line * LINE, durable_image + (u64)pending[i].line * LINE, LINE);
}

// Whether a run from an image, which the limit cut, does not end: it takes all turns that a recovery may need. If it ends, such runs are
// given as many turns from then on. A run that stores to each byte of the region several times does not end either.
int is_endless(const u32 *chosen) {
  u64 limit = turn_limit;
  turn_limit = whole_limit;
  run_image(chosen);
  turn_limit = limit;
  endless_turns += last_run.turns;
  if (last_run.ending == FULL && last_run.events / 4 > hippo_program_region) {
    whole_limit = last_run.turns;
    last_run.ending = CUT;
  }
  if (last_run.ending == CUT) return 1;
  u64 most = TIMES * (last_run.turns + 2500);
  turn_limit = most < whole_limit ? most : whole_limit;
  return 0;
}

static void choose_allowed(void) {
  for (u32 i = 0; i < pending_count; i++) {
    u32 last = pending[i].count - 1, at = 0;
    while (at < last && !pending[i].contents[from_newest ? last - at : at].is_allowed) at++;
    choice[i] = from_newest ? last - at : at;
  }
}

// The events of a recovery, if it stores anything: a crash in it is worth a try.
static void keep_recovery(struct leaf *leaf) {
  u32 stores = 0;
  if (last_run.ending == CUT) return;
  for (u32 i = 0; i < last_run.recovered; i++) stores += events[i].kind == STORE;
  if (!stores || current.level >= most_levels) return;
  leaf->events = malloc(last_run.recovered * sizeof *events);
  if (!leaf->events) return;
  memcpy(leaf->events, events, last_run.recovered * sizeof *events);
  leaf->event_count = last_run.recovered;
}

static void note_leaf(struct leaf *leaf) {
  if (tries_outputs) {
    leaf->is_failing = judge_outputs(leaf, choice);
    return;
  }
  behaviours += !looks_for_one;
  keep_recovery(leaf);
  keep_reads(leaf);
  leaf->is_failing = !leaf->is_undecided && fails(&last_run);
  if (!leaf->is_failing) return;
  failing_behaviours += !looks_for_one;
  note_failure(leaf, choice);
  is_stopped |= looks_for_one && is_wanted_found;
}

// Runs from the image that is chosen; whether it stays open if the run ends. To look for one cause the quick limit is enough.
static int is_left_undecided(void) {
  run_image(choice);
  if (last_run.ending != CUT || turn_limit >= whole_limit || looks_for_one) return 0;
  if (endless_runs == MOST_ENDLESS || endless_turns >= MOST_ENDLESS_TURNS) return 1;
  endless_runs += (u32)is_endless(choice);
  return 0;
}

// Runs from the image that is chosen. The leaf; 0 if there is no room or no time.
static u32 run_chosen(u32 start) {
  if (is_stopped || is_over()) {
    is_stopped = 1;
    return 0;
  }
  u32 known = leaf_count, known_keys = key_count;
  int is_undecided = is_left_undecided();
  if (key_count > known_keys) note_reports(known_keys, choice);
  u32 node = add_last_run(start);
  if (!node || last_run.ending == FULL) is_stopped = 1;
  if (node && leaf_count > known) {
    leaves[trie[node].leaf].is_undecided = (u8)is_undecided;
    note_leaf(&leaves[trie[node].leaf]);
  }
  return node;
}

static u64 value_under(const u8 *bytes, u64 mask) {
  u64 value = 0;
  for (u32 count = 0; mask; mask &= mask - 1) value |= (u64)bytes[__builtin_ctzll(mask)] << 8 * count++;
  return value;
}

static void walk(u32 start, u32 node, u32 deviations);

// The child of a node for a value; the run that shows it is made if there was none.
static u32 child_of(u32 start, u32 node, u64 value) {
  u32 child = trie_child(node, value);
  if (child || is_stopped) return child;
  choose_allowed();
  run_chosen(start);
  child = trie_child(node, value);
  is_stopped |= !child;
  return child;
}

// Allows only the contents of a line, among those in `before`, that have the value under the mask.
static void allow(struct pending *line, const u8 *before, u64 mask, u64 value) {
  for (u32 i = 0; i < line->count; i++) line->contents[i].is_allowed = before[i] && value_under(line->contents[i].bytes, mask) == value;
}

// Follows each value that a line may have under the mask of the node.
static void walk_values(u32 start, u32 node, struct pending *line, u32 deviations) {
  u64 mask = trie[node].mask, tried[MOST_PREFIXES];
  u8 before[MOST_PREFIXES];
  u32 tried_count = 0;
  for (u32 i = 0; i < line->count; i++) before[i] = line->contents[i].is_allowed;
  for (u32 i = 0; i < line->count && !is_stopped; i++) {
    u32 at = from_newest ? line->count - 1 - i : i, k = 0;
    u64 value = value_under(line->contents[at].bytes, mask);
    while (k < tried_count && tried[k] != value) k++;
    if (!before[at] || k < tried_count) continue;
    if (tried_count && !deviations) {
      was_limited = 1;
      break;
    }
    tried[tried_count++] = value;
    allow(line, before, mask, value);
    u32 child = child_of(start, node, value);
    if (child) walk(start, child, deviations - (tried_count > 1 && deviations != ALL));
  }
  for (u32 i = 0; i < line->count; i++) line->contents[i].is_allowed = before[i];
}

// Tries all images that are allowed and come to the node. `deviations` bounds the lines that do not have their first content.
static void walk(u32 start, u32 node, u32 deviations) {
  while (!is_stopped) {
    if (trie[node].state == UNKNOWN) {
      choose_allowed();
      run_chosen(start);
      if (trie[node].state == UNKNOWN) return;
    }
    if (trie[node].state == LEAF) {
      was_limited |= leaves[trie[node].leaf].is_undecided;
      add_nested(&leaves[trie[node].leaf]);
      if (behaviours_wanted && !looks_for_one && !tries_outputs) {
        choose_allowed();
        note_behaviour(&leaves[trie[node].leaf], choice);
      }
      return;
    }
    struct pending *line = pending_of(trie[node].line);
    if (line) {
      walk_values(start, node, line, deviations);
      return;
    }
    node = child_of(start, node, value_under(durable_image + (u64)trie[node].line * LINE, trie[node].mask));
  }
}

// Whether a run from an image is told how many numbers were printed before this crash.
static int tells_prints(void) { return hippo_program_prints_address && current.level == 1; }

static u32 prints_at_event(void) {
  u32 least = 0, most = printed_count;
  while (least < most) {
    u32 middle = least + (most - least) / 2;
    if (printed[middle] <= at_event) least = middle + 1;
    else most = middle;
  }
  return least;
}

static void try_point(u32 deviations) {
  u64 told = current.told;
  if (tells_prints()) current.told = prints_here;
  u32 start = trie_start(tries_outputs ? begin_outputs(current.told, prints_here) : current.told);
  is_stopped |= !start || is_trie_nearly_full();
  was_limited = 0;
  for (from_newest = 0; from_newest < 2 && !is_stopped; from_newest++) walk(start, start, deviations);
  from_newest = 0;
  current.told = told;
}

static void try_random_image(void) {
  u64 told = current.told;
  if (tells_prints()) current.told = prints_at_event();
  for (u32 i = 0; i < pending_count; i++) choice[i] = random_below(pending[i].count);
  u32 start = trie_start(current.told);
  if (start) run_chosen(start);
  current.told = told;
}

static void try_newest(void) {
  u32 start = trie_start(current.told);
  find_pending();
  for (u32 i = 0; i < pending_count; i++) choice[i] = pending[i].count - 1;
  if (start) run_chosen(start);
  forget_pending();
}

// Tries the images of a crash after this event and this number of prints. `is_whole` becomes whether all of them are tried.
static void try_images(u32 prints, u32 deviations, int is_first_pass, u8 *is_whole) {
  double images = find_pending();
  if (images > MOST_IMAGES) images = MOST_IMAGES;
  int cut_short = is_cut_short;
  if (is_first_pass && !tries_outputs && !looks_for_one) images_tried += images, points_tried++, points_large += (u32)cut_short;
  images_here = images;
  prints_here = prints;
  try_point(deviations);
  *is_whole = !was_limited && !is_stopped && !cut_short;
  forget_pending();
}

static void try_event(u32 number, u32 deviations, int is_first_pass) {
  if (number < first_point || number > last_point || is_done[number]) return;
  if (number == current.count || changes_what_is_durable(number)) {
    try_images(prints_at_event(), deviations, is_first_pass, &is_done[number]);
  } else if (is_first_pass && !tries_outputs && number && current.events[number - 1].kind == STORE && !hippo_program_prints_address) {
    try_newest();
  }
}

static int is_point(u32 number) {
  return number >= first_point && number <= last_point && (number == current.count || changes_what_is_durable(number));
}

// A crash before a number is printed is a point of its own if the next run is told how many were printed.
static int is_point_before(u32 print) { return tells_prints() && printed[print] >= first_point && printed[print] <= last_point; }

// The points of a layer that are not yet tried whole.
static u64 count_left(const struct crashed *crashed) {
  u64 left = 0;
  begin_layer(crashed);
  for (u32 number = 0; number <= crashed->count; number++) {
    left += !is_done[number] && is_point(number);
    if (number < crashed->count) take_event(number);
  }
  for (u32 print = 0; print < printed_count; print++) left += !is_print_done[print] && is_point_before(print);
  return left;
}

// Tries the crashes after this event and before each number that is printed then; the next print.
static u32 try_before_prints(u32 print, u32 number, u32 deviations, int is_first_pass) {
  for (; print < printed_count && printed[print] == number && !is_stopped; print++)
    if (!is_print_done[print] && is_point_before(print)) try_images(print, deviations, is_first_pass, &is_print_done[print]);
  return print;
}

// Tries each point whose number is a multiple of `step` and not one of `among`, and, at the step 1, what is between points.
static void try_pass(const struct crashed *crashed, u32 deviations, int is_first_pass, u64 step, u64 among) {
  u64 point = 0;
  u32 print = 0;
  begin_layer(crashed);
  for (u32 number = 0; number <= crashed->count && !is_stopped; number++) {
    if (step == 1 && tells_prints()) print = try_before_prints(print, number, deviations, is_first_pass);
    if (!is_point(number)) {
      if (step == 1) try_event(number, deviations, is_first_pass);
    } else if (point++ % step == 0 && !(among && (point - 1) % among == 0)) {
      try_event(number, deviations, is_first_pass);
    }
    if (number < crashed->count) take_event(number);
  }
}

// Tries the points of a layer in passes: first those images in which few lines deviate from the oldest or the newest contents, and of these
// first those of points that are spread over the run. What is tried before a time ends so says something of the whole run.
static u64 try_layer(const struct crashed *crashed) {
  static const u32 DEVIATIONS[] = {0, 1, 2, 4, ALL};
  is_done = calloc(crashed->count + 1, 1);
  is_print_done = calloc(printed_count + 1, 1);
  if (!is_done || !is_print_done) abort();
  u64 points = count_left(crashed), step = 1;
  if (!tries_outputs && !looks_for_one) {
    all_points += points;
    while (points / step > FIRST_ROUND) step *= 2;
  }
  for (u64 among = 0; step && !is_stopped; among = step, step /= 2) try_pass(crashed, DEVIATIONS[0], 1, step, among);
  for (u32 pass = 1; pass < 5 && !is_stopped; pass++) try_pass(crashed, DEVIATIONS[pass], 0, 1, 0);
  u64 left = count_left(crashed);
  free(is_done);
  free(is_print_done);
  return left;
}

// Random images after all events, for runs that have too many images for all to be tried.
static void sample(const struct crashed *crashed) {
  while (!is_over()) {
    begin_layer(crashed);
    is_stopped = 0;
    for (u32 number = 0; number <= crashed->count && !is_over(); number++) {
      if (number >= first_point && number <= last_point && random_below(4) == 0) {
        find_pending();
        for (u32 i = 0; i < sample_count && !is_over(); i++) try_random_image();
        forget_pending();
      }
      if (is_trie_nearly_full()) clear_trie();
      if (number < crashed->count) take_event(number);
    }
    if (!crashed->count || !sample_count) return;
  }
}

// The run that crashes: its events and prints, which later runs overwrite.
static struct crashed copied_run(void) {
  struct event *copy = malloc((last_run.events + 1) * sizeof *copy);
  printed = malloc((last_run.prints + 1) * sizeof *printed);
  if (!copy || !printed) abort();
  quiet = malloc((input.taken + 1) * sizeof *quiet);
  if (!quiet) abort();
  quiet_count = 0;
  u32 first = first_of_operations();
  for (u32 i = first; i < input.taken; i++)
    if (reads_made[i].class == reads_made[first].class && reads_made[i].path == reads_made[first].path) quiet[quiet_count++] = reads_made[i].events;
  memcpy(copy, events, last_run.events * sizeof *copy);
  memcpy(printed, print_events, last_run.prints * sizeof *printed);
  printed_count = last_run.prints;
  return (struct crashed){.events = copy, .count = last_run.events, .level = 1};
}

// The limits of runs from images, where the longest known run takes these turns. A shorter input is not worth the whole limit.
static void set_limits(u64 turns) {
  u64 some = TIMES_QUIET * (turns + 2500), any = some + TURNS_FOR_ANY + TURNS_FOR_A_BYTE * hippo_program_region;
  whole_limit = any < greatest_limit ? any : greatest_limit;
  turn_limit = looks_for_one && some < whole_limit ? some : whole_limit;
}

// Whether the next run fails from what the run left before an operation, or at its end, with nothing lost. Then the input leaves a state that
// the program refuses, and crashes of its run show nothing. `turns` becomes what the longest of these runs takes.
static int is_refused(const struct crashed *crashed, u64 *turns) {
  int found = 0;
  begin_layer(crashed);
  for (u32 number = 0, next = 0; number <= crashed->count && !found && !is_stopped; number++) {
    while (next < quiet_count && quiet[next] < number) next++;
    if (number == crashed->count || (next < quiet_count && quiet[next] == number)) {
      find_pending();
      for (u32 i = 0; i < pending_count; i++) choice[i] = pending[i].count - 1;
      current.told = prints_at_event();
      run_image(choice);
      found = fails(&last_run);
      if (found) note_refusal(choice);
      if (last_run.turns > *turns) *turns = last_run.turns;
      forget_pending();
    }
    if (number < crashed->count) take_event(number);
  }
  return found;
}

static void try_outputs(const struct crashed *first) {
  clear_trie();
  is_stopped = 0, tries_outputs = 1;
  points_left += try_layer(first);
  tries_outputs = 0;
}

// Crashes of a run that has ended: first all images in turn, then random ones.
static void try_run(const struct crashed *first, int only_wanted) {
  u64 now = spent(), whole = stop_at, part = whole > now ? (whole - now) / 8 : 0;
  clear_trie();
  begin_nested();
  begin_behaviours();
  stop_at = only_wanted ? whole : now + 5 * part;
  u64 left = try_layer(first);
  for (const struct crashed *nested; !is_stopped && (nested = next_nested());) left += try_layer(nested);
  left += next_nested() != NULL || nested_left_out;
  if (!only_wanted) {
    points_left += left;
    stop_at = now + 6 * part;
    if (left) sample(first);
    stop_at = now + 7 * part;
    if (finds_outputs()) try_outputs(first);
  }
  stop_at = whole; // the rest is for shorter inputs
}

void try_crashes(const i64 *numbers, u32 count, int only_wanted) {
  i64 (*draw)(void) = input.draw;
  void (*report)(const struct report *) = on_report;
  u64 limit = turn_limit;
  looks_for_one = only_wanted;
  if (only_wanted) on_report = NULL;
  is_stopped = 0, operation_class = 0;
  input.draw = NULL;
  set_input(numbers, count);
  run_program(0);
  restore_region(initial_region);
  forget_edges();
  if (last_run.ending == STOP || (last_run.ending == INPUT && !only_wanted)) {
    keep_operations(numbers, count);
    struct crashed first = copied_run();
    begin_failures(numbers, count, last_run.status);
    u64 turns = last_run.turns;
    set_limits(turns);
    int refused = is_refused(&first, &turns);
    turn_limit = TIMES * (turns + 2500) < whole_limit ? TIMES * (turns + 2500) : whole_limit;
    endless_runs = 0;
    if (!refused) try_run(&first, only_wanted);
    end_layer();
    free((void *)first.events);
    free(printed);
    free(quiet);
  }
  turn_limit = limit, input.draw = draw, on_report = report;
}

void explore_crashes(const i64 *numbers, u32 count) {
  try_crashes(numbers, count, 0);
  shorten_failures();
}

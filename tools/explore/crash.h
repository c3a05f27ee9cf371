// Crashes of one run: its cache lines, event by event, and the images that a crash may leave.
#ifndef CRASH_H
#define CRASH_H

#include "inputs.h"
#include "trie.h"

#define MOST_PENDING 4096
#define MOST_PREFIXES 512

#define MOST_LEVELS 4

// A content that a line may have after crashes. `picks` has for each of these the number of first stores that it left in the line; 0 if
// these are the durable ones.
struct content {
  u8 bytes[LINE];
  u32 upto, picks[MOST_LEVELS];
  u8 is_allowed;
};

// A line that a crash may leave with several contents.
struct pending {
  u32 line, count;
  struct content *contents;
};

// A line that an earlier crash left with several contents, none of which the recovery told apart.
struct open_line {
  u32 line, count;
  struct content *contents;
};

// A line whose content is certain.
struct certain {
  u32 line;
  u8 bytes[LINE];
};

// A run that crashes: its events, and the region at its start, by the lines that are not as before the first run. `before` is the crash
// from whose image it ran; `told` is the number that hippo_prints gave it.
struct crashed {
  const struct event *events;
  u32 count, level, certain_count, open_count;
  u64 told;
  struct certain *certain;
  struct open_line *open;
  const struct cut *before;
};

// A crash after a number of events, with the picks that are certain.
struct cut {
  u32 events, pick_count;
  const struct cut *before;
  struct pick {
    u32 line, upto;
  } *picks;
};

// ---- layers.c: the cache lines of the crashed run

extern struct crashed current;
extern u32 at_event;               // the crash comes before this event
extern struct pending pending[MOST_PENDING];
extern u32 pending_count;
extern u8 *durable_image;          // what is certain at this point
extern int is_cut_short;           // some contents are left out

void make_layers(void);
void begin_layer(const struct crashed *crashed);
void end_layer(void);
void take_event(u32 number);       // the next event happens
int changes_what_is_durable(u32 number);
double find_pending(void);         // finds `pending`, and returns the number of images
void forget_pending(void);
struct pending *pending_of(u32 line); // nothing if the line has one content
u32 lost_stores(const u32 *choice, u32 *stores, u32 most); // the events of the stores that an image lacks
struct certain *certain_lines(u32 *count);               // a copy of the lines that are certain here

// ---- nested.c: crashes in the recovery of a crash

void begin_nested(void);
void add_nested(const struct leaf *leaf);
const struct crashed *next_nested(void); // nothing when all were taken
extern int nested_left_out;
const struct cut *cut_of(const u32 *choice); // a copy of the crash that leaves this image, and of those before it
void write_cut(const struct cut *cut);
void free_cuts(const struct cut *cut);

// ---- failures.c: what fails, and its causes

void begin_failures(const i64 *numbers, u32 count, int status);
int fails(const struct run *run);
void note_failure(const struct leaf *leaf, const u32 *choice);
void note_reports(u32 first, const u32 *choice); // those of `keys` from this one on, which the last run showed
void note_refusal(const u32 *choice);            // the last run fails though nothing is lost and no operation is under way
void shorten_failures(void);                     // shows failures again, each with a shorter input
extern int failures_found, is_wanted_found;

// ---- behaviours.c: the behaviours of crash points, to be shown

extern u32 behaviours_wanted;
void begin_behaviours(void);
void keep_reads(struct leaf *leaf);                             // of the last run
void note_behaviour(const struct leaf *leaf, const u32 *choice); // an image of this point behaves so
extern double images_here;

// ---- outputs.c: what a program prints after a crash in an operation

void keep_operations(const i64 *numbers, u32 count); // of the last run
u32 first_of_operations(void);
int finds_outputs(void);                             // whether the run has operations whose outputs are compared
u64 begin_outputs(u64 told, u32 prints_before);      // a crash at this point; the number that identifies what its runs are given
void set_crash_input(void);                          // the input of a run from an image
int judge_outputs(const struct leaf *leaf, const u32 *choice); // whether the last run prints what no run without a crash does
void write_cuts(const u32 *choice);
void write_site(const struct event *event); // SITE/CALL/CALL..
void write_crashed_input(void);

// ---- crash.c

void run_image(const u32 *choice); // leaves the region as it was
extern u64 whole_limit;            // a run from an image that takes more turns does not end
int is_endless(const u32 *choice); // whether a run from an image, which the limit cut, does not end
void try_crashes(const i64 *numbers, u32 count, int only_wanted); // `only_wanted`: until the wanted cause is found
#endif

// The inputs that the search keeps, and the reports that it knows.
#ifndef INPUTS_H
#define INPUTS_H

#include "engine.h"

#define MOST_KEPT 65536

// A kept input; `is_explored` once its crashes were tried, `ends` if main returned.
struct kept {
  i64 *numbers;
  u32 count, events, start;
  u8 is_explored, ends;
};

// A report as a group of `hippo-c check` has it: what is missing, its sites and the calls, without the check.
struct key {
  u64 hash;
  enum missing missing;
  u32 store, path, flush;
};

extern struct kept *corpus;
extern u32 corpus_count, most_numbers;
extern i64 least_number, greatest_number;
extern struct key *keys;
extern u32 key_count, blocks_ran;

void make_inputs(void);
void set_input(const i64 *numbers, u32 count);
void keep_input(void);                     // the numbers that the last run took
int new_edges(void);                       // whether the last run took an edge in a new way; notes it
void forget_edges(void);                   // what the last run took is not noted
u64 report_hash(const struct report *);
void note_report(const struct report *);   // adds the key of a report to `keys` if it is new
void forget_keys(u32 first);
void mutate(void);                         // changes the input
i64 draw_number(void);
void write_numbers(const i64 *numbers, u32 count);
void write_calls(u32 path);
void write_key(const struct key *key);

// ---- starts.c: the bytes of files before the first run

extern u32 current_start; // 0: as they are given
void read_files(const char *text);
int has_files(void);
void set_start(u32 start);
void look_at_reads(void); // of the input; where the next starts change
u32 mutated_start(u32 from);
void forget_start(u32 start);
u32 shrink_start(u64 hash, const i64 *numbers, u32 count);
void write_start(void);

// ---- shrink.c

// Makes the input smaller as long as its run still shows the key; the count of numbers that is left. At most `most` runs are made.
u32 shrink_input(u64 hash, i64 *numbers, u32 count, u32 most);
int shows_key(u64 hash, const i64 *numbers, u32 count);

// ---- crash.c: crashes of a run, within stop_at

void make_crashes(void);
void explore_crashes(const i64 *numbers, u32 count);
extern u32 most_levels, sample_count;
extern u64 greatest_limit; // of the turns of a run from an image
extern int checks_status, is_atomic;
extern u64 first_point, last_point; // the numbers of events after which crashes are tried
extern double images_tried;
extern u64 points_tried, points_left, all_points, behaviours, failing_behaviours;
extern u64 points_large; // that have more lines or contents than the engine holds

// ---- explore.c

void replay_command(i64 **inputs, const u32 *counts, u32 given);
void explore_command(i64 **inputs, const u32 *counts, u32 count, u32 given, int progress);
#endif

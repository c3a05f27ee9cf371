// The engine: runs of the instrumented program, their events, and what they leave in the cache lines.
#ifndef ENGINE_H
#define ENGINE_H

#include <signal.h>
#include <stddef.h>

#include "hooks.h"

#define LINE 64
#define MOST_EVENTS (1u << 22)
#define MOST_PARTS (1u << 23)
#define MOST_NUMBERS (1u << 20)
#define MOST_PRINTS (1u << 20)
#define MOST_PATHS (1u << 20)
#define MOST_READS (1u << 20)
#define REGION ((u8 *)REGION_BASE)

// ---- the table of the program, which instrument.py writes

struct initial {
  u64 address;
  const void *bytes;
  u64 size;
};

extern const struct initial hippo_program_initial[];
extern const u64 hippo_program_initials, hippo_program_region, hippo_program_volatile, hippo_program_blocks, hippo_program_sites;
extern const u64 hippo_program_edges; // the number of counters of edges, a power of two
extern const u32 hippo_program_turns[]; // for each site the turns before it in its segment
extern const u32 hippo_program_classes[]; // for each site that reads a number, but not a word of the command line, the number of its place in C, from 1 on; otherwise 0
extern const i64 hippo_program_constants[]; // the numbers that the program compares with
extern const u64 hippo_program_constant_count;
extern const u64 hippo_program_marks_recovery; // whether the program says where its recovery ends; otherwise at the first number that it reads
extern const u64 hippo_program_prints_address; // of the number that hippo_prints returns; 0 without one
int hippo_program_main(void);

// ---- memory.c

void *reserved(u64 bytes); // memory that costs nothing until it is used
void map_memory(void);     // hippo's memory, with its initial bytes
extern u8 *initial_region; // the bytes of the region before the first run

// ---- machine.c

enum event_kind { STORE, FLUSH, FENCE, PERSIST, ASSERT };

// An event has an entry in the trace. A store has its value; the others the size of their range.
struct event {
  u8 kind, size;
  u32 site, path, operation;
  u64 address, value;
};

// The numbers that a run reads. A run with `draw` adds a number where the input ends, up to `most` numbers.
struct input {
  i64 *numbers;
  u32 count, taken, most;
  i64 (*draw)(void);
};

// What a run did.
struct run {
  enum ending ending;
  int status;        // what main returned
  u32 site, path;    // where the run trapped
  u64 turns;
  u32 events, prints, recovered, operations;
};

// Where a run read a number: the number of the place in C, the calls, and the events before it.
struct read_place {
  u32 class, path, events;
};

extern struct read_place *reads_made;
extern u32 operation_class, operation_path; // the place whose reads begin operations; class 0: there is none

extern struct event *events;
extern i64 *prints;
extern u32 *print_events, *print_operations; // for each print the number of events before it, and its operation
extern u32 *operation_inputs; // for each operation the numbers read before it
extern struct run last_run;
extern struct input input;
extern u32 epoch; // the number of the run
extern u64 run_count;
extern u64 turn_limit;

void make_machine(void);
struct run run_program(int with_check); // from the bytes that the region has
void restore_region(const u8 *bytes);   // where the last run stored
u64 mixed(u64 hash, u64 value);

// ---- paths.c: the calls that led to an event, as a tree

#define ROOT 1u
void make_paths(void);
u32 current_path(void);
u64 path_key(u32 path); // equal for paths that differ only in calls that occur again further outside
u32 path_parent(u32 path);
u32 path_call(u32 path);
u32 path_depth(u32 path);

// ---- budget.c: time or runs that may be spent, and random numbers

void make_budget(u64 runs, double seconds, u64 seed);
u64 spent(void);      // in runs, or in nanoseconds of processor time
extern u64 whole_budget, stop_at; // stop_at may be lowered for a part of the work
extern volatile sig_atomic_t is_interrupted; // the summary comes next
int is_over(void);    // whether stop_at is reached
u64 random_number(void);
u32 random_below(u32 limit);

// ---- lines.c: what is durable, and the reports of checks

enum missing { MISSING_FLUSH, MISSING_FENCE, MISSING_BOTH };

// A report: the events of the store and of the check, and the first flush of its line if only a fence is missing.
struct report {
  enum missing missing;
  u32 store, check, flush, closed;
};

extern void (*on_report)(const struct report *);
void make_lines(void);
void begin_lines(void);
void line_stored(u32 event);
void line_flushed(u32 event);
void line_fenced(u32 event);
void check_range(u64 from, u64 to, u32 check);

// ---- reads.c: what a run from an image reads before it writes it

// Bytes of a line, at most eight, under a mask, and their values one after another from the lowest.
struct read {
  u32 line;
  u64 mask, value;
};

extern struct read *reads;
extern u32 read_count;
void make_reads(void);
void begin_reads(void);
void read_stored(u64 offset, u32 size);

// ---- traces.c

void write_trace(const u8 *image);
void write_report(const struct report *report);
u32 header_entries(const u8 *image);
void write_image(const u8 *image);
const char *ending_word(enum ending ending);
#endif

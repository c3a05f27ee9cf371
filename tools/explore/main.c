// The commands of the engine. tools/hippo_c/native.py gives the words and reads the answers.
#define _GNU_SOURCE
#include <inttypes.h>
#include <signal.h>
#include <stdio.h>
#include <stdlib.h>
#include <string.h>
#include <sys/prctl.h>
#include <ucontext.h>
#include <unistd.h>

#include "crash.h"

#define NATIVE_STACK (4ull << 30)
#define DEFAULT_LIMIT 1000000000ull
#define MOST_INPUTS 65536u

static int word_count;
static char **words;
static int exit_code;
static i64 *inputs[MOST_INPUTS];
static u32 input_counts[MOST_INPUTS], input_count;

// The value of an option, or nothing.
static const char *option(const char *name) {
  for (int i = 2; i + 1 < word_count; i++)
    if (!strcmp(words[i], name)) return words[i + 1];
  return NULL;
}

static u64 number_option(const char *name, u64 otherwise) {
  const char *text = option(name);
  return text ? strtoull(text, NULL, 10) : otherwise;
}

static void refuse(const char *what, const char *name) {
  fprintf(stderr, "engine: %s %s\n", what, name);
  exit(3);
}

// Reads the inputs of a file: one in each line. The first one goes into the input of the run.
static u32 read_inputs(const char *path, i64 **inputs, u32 *counts) {
  char *line = NULL, *at, *end;
  size_t room = 0;
  u32 count = 0;
  FILE *file = fopen(path, "r");
  if (!file) refuse("no file", path);
  while (count < MOST_INPUTS && getline(&line, &room, file) >= 0) {
    i64 *numbers = reserved((strlen(line) / 2 + 1) * sizeof *numbers);
    counts[count] = 0;
    for (at = line; counts[count] < MOST_NUMBERS; at = end) {
      i64 number = strtoll(at, &end, 10);
      if (end == at) break;
      numbers[counts[count]++] = number;
    }
    inputs[count++] = numbers;
  }
  free(line);
  fclose(file);
  return count;
}

// Puts the lines `IMAGE;ADDRESS;BYTES` of a trace into the region.
static void read_image(const char *path) {
  FILE *file = fopen(path, "r");
  if (!file) refuse("no file", path);
  char line[512], digits[2 * LINE + 1];
  memset(initial_region, 0, hippo_program_region); // a line without an entry has zeros
  unsigned long long address;
  while (fgets(line, sizeof line, file)) {
    if (sscanf(line, "IMAGE;0x%llx;%128s", &address, digits) != 2) continue;
    if (address - REGION_BASE > hippo_program_region - LINE) refuse("an address outside the region in", path);
    for (u32 i = 0; i < LINE; i++) {
      char pair[] = {digits[2 * i], digits[2 * i + 1], 0};
      initial_region[address - REGION_BASE + i] = (u8)strtoul(pair, NULL, 16);
    }
  }
  fclose(file);
  memcpy(REGION, initial_region, hippo_program_region);
}

// `stop C`, `trap K` or `cut`, as hippo says it.
static void say_ending(void) {
  if (last_run.ending == STOP) fprintf(stderr, "stop %d\n", last_run.status);
  else if (last_run.ending == CUT || last_run.ending == FULL) fprintf(stderr, "%s\n", ending_word(last_run.ending));
  else fprintf(stderr, "trap %s\n", ending_word(last_run.ending));
}

static int trace_command(void) {
  run_program(0);
  write_trace(initial_region);
  say_ending();
  return 0;
}

static int check_command(void) {
  on_report = write_report;
  run_program(1);
  say_ending();
  return 0;
}

static int run_command(void) {
  run_program(0);
  for (u32 i = 0; i < last_run.prints; i++) printf("%" PRId64 "\n", prints[i]);
  say_ending();
  return 0;
}

static i64 signed_option(const char *name, i64 otherwise) {
  const char *text = option(name);
  return text ? strtoll(text, NULL, 10) : otherwise;
}

// What explore and crash have in common.
static void read_exploration(void) {
  const char *seconds = option("--time");
  make_inputs();
  make_crashes();
  make_budget(number_option("--runs", 0), seconds ? atof(seconds) : 60, number_option("--seed", 1));
  most_levels = (u32)number_option("--crashes", 2);
  most_numbers = (u32)number_option("--numbers", 200);
  least_number = signed_option("--least", INT64_MIN);
  greatest_number = signed_option("--greatest", INT64_MAX);
  checks_status = (int)number_option("--status", 0);
  is_atomic = (int)number_option("--atomic", 0);
  sample_count = (u32)number_option("--sample", 2);
  greatest_limit = turn_limit;
  read_files(option("--files"));
  behaviours_wanted = (u32)number_option("--behaviours", 0);
  first_point = number_option("--first", 0);
  last_point = number_option("--last", ~0ull);
}

static int explore_all(void) {
  read_exploration();
  u32 given = (u32)number_option("--given", input_count);
  explore_command(inputs, input_counts, input_count, given, (int)number_option("--progress", 0));
  return 0;
}

static int replay_all(void) {
  read_exploration();
  replay_command(inputs, input_counts, input_count);
  return 0;
}

static const struct command {
  const char *name;
  int (*carry_out)(void);
} COMMANDS[] = {{"trace", trace_command}, {"check", check_command}, {"run", run_command}, {"explore", explore_all}, {"replay", replay_all}};

static void carry_out(void) {
  turn_limit = number_option("--limit", DEFAULT_LIMIT);
  input.numbers = reserved((MOST_NUMBERS + 1) * sizeof *input.numbers);
  if (option("--input")) input_count = read_inputs(option("--input"), inputs, input_counts);
  if (input_count) set_input(inputs[0], input_counts[0]);
  if (option("--image")) read_image(option("--image"));
  for (u32 i = 0; i < sizeof COMMANDS / sizeof *COMMANDS; i++)
    if (!strcmp(words[1], COMMANDS[i].name)) {
      exit_code = COMMANDS[i].carry_out();
      return;
    }
  refuse("no command", words[1]);
}

static void on_fault(int signal) {
  static const char TEXT[] = "engine: a fault that no hook saw\n";
  ssize_t ignored = write(2, TEXT, sizeof TEXT - 1);
  (void)ignored, (void)signal;
  _exit(3);
}

static void on_end(int signal) { is_interrupted = signal; }

static void catch_signals(void) {
  stack_t stack = {.ss_sp = reserved(1 << 16), .ss_size = 1 << 16};
  sigaltstack(&stack, NULL);
  struct sigaction action = {.sa_handler = on_fault, .sa_flags = SA_ONSTACK};
  const int SIGNALS[] = {SIGSEGV, SIGBUS, SIGFPE, SIGILL};
  for (u32 i = 0; i < sizeof SIGNALS / sizeof *SIGNALS; i++) sigaction(SIGNALS[i], &action, NULL);
  action.sa_handler = on_end;
  sigaction(SIGTERM, &action, NULL);
}

// The commands run on a stack that has room for 16,384 calls of the program.
int main(int count, char **given) {
  if (count < 2) {
    fputs("engine: usage: COMMAND [OPTIONS]\n", stderr);
    return 3;
  }
  word_count = count, words = given;
  prctl(PR_SET_PDEATHSIG, SIGKILL);
  map_memory();
  make_machine();
  catch_signals();
  static ucontext_t here, there;
  getcontext(&there);
  there.uc_stack.ss_sp = reserved(NATIVE_STACK);
  there.uc_stack.ss_size = NATIVE_STACK;
  there.uc_link = &here;
  makecontext(&there, carry_out, 0);
  swapcontext(&here, &there);
  return fflush(stdout) ? 3 : exit_code;
}

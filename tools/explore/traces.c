// The texts of a run in hippo's form: its trace, and the lines of its reports.
#include <stdio.h>

#include "engine.h"

static const char *const ENDINGS[] = {"running",  "stop",  "divzero", "divoverflow", "shift", "address", "misaligned",
                                      "stack", "depth", "input",   "unreachable", "cut",   "full",    "unreachable"};

const char *ending_word(enum ending ending) { return ENDINGS[ending]; }

static int has_image_entry(const u8 *line) {
  for (u32 i = 0; i < LINE; i++)
    if (line[i]) return 1;
  return 0;
}

u32 header_entries(const u8 *image) {
  u32 count = 2 + input.count;
  for (u64 at = 0; at < hippo_program_region; at += LINE) count += has_image_entry(image + at);
  return count;
}

void write_image(const u8 *image) {
  for (u64 at = 0; at < hippo_program_region; at += LINE) {
    if (!has_image_entry(image + at)) continue;
    printf("IMAGE;0x%llx;", REGION_BASE + (unsigned long long)at);
    for (u32 i = 0; i < LINE; i++) printf("%02x", image[at + i]);
    putchar('\n');
  }
}

static void write_event(const struct event *event) {
  unsigned long long address = event->address, value = event->value;
  switch (event->kind) {
  case STORE: printf("STORE;0x%llx;0x%llx;0x%x\n", address, value, event->size); break;
  case FLUSH: printf("FLUSH;0x%llx;0x%llx\n", address, value); break;
  case PERSIST: printf("PERSIST;0x%llx;0x%llx\n", address, value); break;
  case ASSERT: printf("ASSERT;0x%llx;0x%llx\n", address, value); break;
  default: puts("FENCE");
  }
}

// The trace of the last run, whose region began with these bytes.
void write_trace(const u8 *image) {
  printf("START;%llu\nREGISTER;0x%llx;0x%llx\n", (unsigned long long)turn_limit, REGION_BASE, (unsigned long long)hippo_program_region);
  for (u32 i = 0; i < input.count; i++) printf("INPUT;%lld\n", (long long)input.numbers[i]);
  write_image(image);
  for (u32 i = 0; i < last_run.events; i++) write_event(&events[i]);
  if (last_run.ending == STOP) printf("STOP;%d\n", last_run.status);
  else if (last_run.ending == CUT) puts("CUT");
  else printf("TRAP;%s\n", ending_word(last_run.ending));
}

// A line of `hippo check`, with the numbers of sites in place of their names.
void write_report(const struct report *report) {
  static const char *const KINDS[] = {"flush", "fence", "both"};
  u32 header = header_entries(initial_region);
  printf("report %s entry %u check %u closed %u", KINDS[report->missing], header + report->store + 1, header + report->check + 1, report->closed);
  if (report->missing == MISSING_FENCE) printf(" flush %u", events[report->flush].site);
  printf(" path %u", events[report->store].site);
  for (u32 path = events[report->store].path; path > ROOT; path = path_parent(path)) printf(" %u", path_call(path));
  putchar('\n');
}

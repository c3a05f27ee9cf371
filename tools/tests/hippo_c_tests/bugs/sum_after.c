// Versions of a record, each with a number and a checksum; the newest one with a right checksum counts.
// Bug: the checksum leaves out the body, so a version whose body is lost counts too.
#include "common.h"

#define VERSIONS 8
#define WORDS 14

struct version {
  LINE uint64_t number;
  uint64_t checksum;
  uint64_t body[WORDS];
};

PERSISTENT struct version versions[VERSIONS];

static uint64_t checksum_of(const struct version *version, uint64_t number) {
  uint64_t sum = number * 0x9E3779B97F4A7C15ull + 1;
  for (int i = 0; !BUG && i < WORDS; i++) sum = (sum ^ version->body[i]) * 0x100000001B3ull;
  return sum;
}

static uint64_t newest(void) {
  uint64_t found = 0;
  for (int i = 0; i < VERSIONS; i++) {
    const struct version *version = &versions[i];
    if (version->number > found && version->checksum == checksum_of(version, version->number)) found = version->number;
  }
  return found;
}

static void recover(void) {
  const struct version *version = &versions[newest() % VERSIONS];
  for (uint64_t i = 1; newest() && i < WORDS; i++) HOLDS(version->body[i] == version->body[0] + i);
}

static void put(uint64_t first) {
  uint64_t number = newest() + 1;
  struct version *version = &versions[number % VERSIONS];
  for (uint64_t i = 0; i < WORDS; i++) version->body[i] = first + i;
  version->checksum = checksum_of(version, number);
  version->number = number;
  PERSIST(*version);
}

int main(void) {
  recover();
  for (long long command; (command = read_i64());) {
    uint64_t number = newest();
    if (command == 1) put((uint64_t)read_i64());
    else
      for (int i = 0; number && i < WORDS; i++) print_i64((long long)versions[number % VERSIONS].body[i]);
  }
  return 0;
}

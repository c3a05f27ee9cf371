// A persistent log. The program writes a record after the last one, makes it durable, and then increments the count. So
// after a crash the first `count` records are whole.
//
// The bug: a record has 24 bytes, so some records are in two cache lines, but `append` flushes only the first line.
#include <hippo.h>
#include <stdint.h>

enum { CAPACITY = 32 };

struct record {
  uint64_t key;
  int64_t value;
  uint64_t checksum;
};

struct log {
  _Alignas(64) uint64_t count;
  _Alignas(64) struct record records[CAPACITY];
};

PERSISTENT struct log events;

static uint64_t checksum(uint64_t key, int64_t value) {
  uint64_t sum = 1469598103934665603u;
  sum = (sum ^ key) * 1099511628211u;
  sum = (sum ^ (uint64_t)value) * 1099511628211u;
  return sum;
}

static int append(uint64_t key, int64_t value) {
  if (events.count == CAPACITY) {
    return 0;
  }
  struct record *record = &events.records[events.count];
  record->key = key;
  record->value = value;
  record->checksum = checksum(key, value);
  _mm_clwb(record);
  _mm_sfence();
  pm_assert(record, sizeof *record);
  events.count += 1;
  _mm_clwb(&events.count);
  _mm_sfence();
  return 1;
}

// The value of the last record with the key, or -1; a damaged record ends the program.
static int64_t lookup(uint64_t key) {
  int64_t value = -1;
  for (uint64_t i = 0; i < events.count; i++) {
    const struct record *record = &events.records[i];
    if (record->checksum != checksum(record->key, record->value)) {
      print_i64(-2);
      __builtin_trap();
    }
    if (record->key == key) {
      value = record->value;
    }
  }
  return value;
}

int main(void) {
  for (int64_t i = 0; i < 40; i++) {
    if (!append((uint64_t)i % 12, i * i)) {
      break;
    }
  }
  print_i64((long long)events.count);
  for (uint64_t key = 0; key < 13; key += 4) {
    print_i64(lookup(key));
  }
  return 0;
}

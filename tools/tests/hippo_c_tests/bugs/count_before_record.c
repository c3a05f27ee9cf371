// A journal of readings, and their count. Bug: the count grows before the reading that it counts is durable.
#include "common.h"

#define MOST 32

struct reading {
  uint64_t sensor, value, check, unused;
};

PERSISTENT struct {
  LINE uint64_t count;
  LINE struct reading readings[MOST];
} journal;

static uint64_t check_of(const struct reading *reading) { return reading->sensor * 31 + reading->value + 1; }

static void recover(void) {
  for (uint64_t i = 0; i < journal.count; i++) HOLDS(journal.readings[i].check == check_of(&journal.readings[i]));
}

static void grow(void) {
  journal.count++;
  PERSIST(journal.count);
}

static void append(uint64_t sensor, uint64_t value) {
  struct reading *reading = &journal.readings[journal.count];
  if (journal.count == MOST) return;
  if (BUG) grow();
  reading->sensor = sensor;
  reading->value = value;
  reading->check = check_of(reading);
  PERSIST(*reading);
  if (!BUG) grow();
}

static void list(void) {
  for (uint64_t i = 0; i < journal.count; i++) {
    print_i64((long long)journal.readings[i].sensor);
    print_i64((long long)journal.readings[i].value);
  }
}

int main(void) {
  recover();
  for (long long command; (command = read_i64());) {
    if (command == 1) {
      uint64_t sensor = (uint64_t)read_i64();
      append(sensor, (uint64_t)read_i64());
    } else {
      list();
    }
  }
  return 0;
}

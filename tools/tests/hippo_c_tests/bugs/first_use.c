// Limits that the first use sets, and a mark that they are set. Bug: no fence between them, which only the first start can show.
#include "common.h"

#define LIMITS 8
#define MARK 77

PERSISTENT struct {
  LINE uint64_t mark;
  LINE uint64_t limits[LIMITS];
  LINE uint64_t values[LIMITS];
} settings;

static void use_first(void) {
  for (uint64_t i = 0; i < LIMITS; i++) settings.limits[i] = 1000 + i;
  FLUSH(settings.limits);
  if (!BUG) pmem_drain();
  settings.mark = MARK;
  PERSIST(settings.mark);
}

static void recover(void) {
  if (settings.mark != MARK) use_first();
  for (uint64_t i = 0; i < LIMITS; i++) HOLDS(settings.limits[i] == 1000 + i);
}

static void set(uint64_t place, uint64_t value) {
  if (value >= settings.limits[place]) return;
  settings.values[place] = value;
  PERSIST(settings.values[place]);
}

int main(void) {
  recover();
  for (long long command; (command = read_i64());) {
    if (command == 1) {
      uint64_t place = (uint64_t)read_i64() % LIMITS;
      set(place, (uint64_t)read_i64());
    } else {
      for (int i = 0; i < LIMITS; i++) print_i64((long long)settings.values[i]);
    }
  }
  return 0;
}

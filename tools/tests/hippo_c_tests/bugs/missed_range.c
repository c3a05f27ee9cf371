// Numbers and their sum, changed under an undo log. Each store is durable in its order.
// Bug: the sum is not saved in the log, so recovery puts back the number alone.
#include "common.h"

#define NUMBERS 8

PERSISTENT struct {
  LINE uint64_t entries;
  LINE struct {
    uint64_t *place, before;
  } log[2];
  LINE uint64_t numbers[NUMBERS];
  LINE uint64_t sum;
} ledger;

static void empty_log(void) {
  ledger.entries = 0;
  PERSIST(ledger.entries);
}

static void recover(void) {
  for (uint64_t entry = ledger.entries; entry-- > 0;) {
    *ledger.log[entry].place = ledger.log[entry].before;
    PERSIST(*ledger.log[entry].place);
  }
  empty_log();
  uint64_t sum = 0;
  for (int i = 0; i < NUMBERS; i++) sum += ledger.numbers[i];
  HOLDS(sum == ledger.sum);
}

static void save(uint64_t *place) {
  ledger.log[ledger.entries].place = place;
  ledger.log[ledger.entries].before = *place;
  PERSIST(ledger.log[ledger.entries]);
  ledger.entries++;
  PERSIST(ledger.entries);
}

static void add(uint64_t *number, uint64_t by) {
  save(number);
  if (!BUG) save(&ledger.sum);
  *number += by;
  PERSIST(*number);
  ledger.sum += by;
  PERSIST(ledger.sum);
  empty_log();
}

int main(void) {
  recover();
  for (long long command; (command = read_i64());) {
    if (command == 1) {
      uint64_t *number = &ledger.numbers[(uint64_t)read_i64() % NUMBERS];
      add(number, (uint64_t)read_i64());
    } else {
      for (int i = 0; i < NUMBERS; i++) print_i64((long long)ledger.numbers[i]);
      print_i64((long long)ledger.sum);
    }
  }
  return 0;
}

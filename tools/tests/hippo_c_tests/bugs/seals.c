// Two copies of a record, each with eight seals in lines of their own; a copy is valid when its seals have the same number.
// Bug: no fence between a copy and its seals. Of all images, only those that have each seal and lack the copy show it.
#include "common.h"

#define SEALS 8

PERSISTENT struct {
  struct {
    LINE uint64_t words[8];
  } copies[2];
  struct {
    LINE uint64_t number;
  } seals[2][SEALS];
} record;

static uint64_t number_of(int copy) {
  uint64_t number = record.seals[copy][0].number;
  for (int i = 1; i < SEALS; i++)
    if (record.seals[copy][i].number != number) return 0;
  return number;
}

static int newest(void) { return number_of(1) > number_of(0); }

static void recover(void) {
  int copy = newest();
  const uint64_t *words = record.copies[copy].words;
  if (number_of(copy)) HOLDS(words[0] && words[0] % number_of(copy) == 0 && words[7] == words[0] + 7);
}

static void put(uint64_t factor) {
  int copy = 1 - newest();
  uint64_t number = number_of(1 - copy) + 1;
  for (uint64_t i = 0; i < 8; i++) record.copies[copy].words[i] = factor * number + i;
  FLUSH(record.copies[copy]);
  if (!BUG) pmem_drain();
  for (int i = 0; i < SEALS; i++) {
    record.seals[copy][i].number = number;
    FLUSH(record.seals[copy][i]);
  }
  pmem_drain();
}

int main(void) {
  recover();
  for (long long command; (command = read_i64());) {
    if (command == 1) put((uint64_t)read_i64() % 1000 + 1);
    else print_i64((long long)record.copies[newest()].words[7]);
  }
  return 0;
}

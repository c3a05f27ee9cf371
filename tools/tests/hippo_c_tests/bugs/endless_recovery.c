// A list of cells, which recovery walks and counts; a free cell links to itself. Bug: a cell is put into the list before its link is durable,
// so that a power cut may leave a ring.
#include "common.h"

enum { CELLS = 4 };

struct cell {
  LINE uint64_t next;
};

PERSISTENT LINE struct {
  LINE uint64_t head;
  LINE uint64_t walked;
  struct cell cells[CELLS];
} s = {.cells = {{1}, {2}, {3}, {4}}};

static void recover(void) {
  s.walked = 0;
  PERSIST(s.walked);
  for (uint64_t at = s.head; at; at = s.cells[at - 1].next) {
    s.walked++;
    PERSIST(s.walked);
  }
}

static void put(uint64_t cell) {
  uint64_t *next = &s.cells[cell - 1].next;
  if (*next != cell) return;
  *next = s.head;
  if (!BUG) PERSIST(*next);
  s.head = cell;
  PERSIST(s.head);
  PERSIST(*next);
}

int main(void) {
  recover();
  for (uint64_t cell; (cell = (uint64_t)read_i64());)
    if (cell <= CELLS) put(cell);
  return 0;
}

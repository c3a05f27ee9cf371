// A table from names to slots, with a bit for each slot in use. Recovery drops bits of slots that no name has.
// Bug: a name gets its slot before the bit of the slot is durable, and recovery trusts the bits.
#include "common.h"

#define NAMES 16
#define SLOTS 16 // slot 0 stands for none

PERSISTENT struct {
  LINE uint64_t used;
  LINE uint32_t slot_of[NAMES];
  struct {
    LINE uint64_t name, value;
  } slots[SLOTS];
} table;

static void recover(void) {
  uint64_t named = 0;
  for (uint32_t name = 0; name < NAMES; name++) {
    uint32_t slot = table.slot_of[name];
    if (!slot) continue;
    HOLDS(table.used >> slot & 1);
    HOLDS(table.slots[slot].name == name);
    named |= 1ull << slot;
  }
  if (BUG || table.used == named) return;
  table.used = named;
  PERSIST(table.used);
}

static uint32_t free_slot(void) {
  uint32_t slot = 1;
  while (slot < SLOTS && table.used >> slot & 1) slot++;
  return slot;
}

static void set_used(uint64_t used) {
  table.used = used;
  PERSIST(table.used);
}

static void put(uint32_t name, uint64_t value) {
  uint32_t slot = free_slot(), before = table.slot_of[name];
  if (slot == SLOTS) return;
  table.slots[slot].name = name;
  table.slots[slot].value = value;
  PERSIST(table.slots[slot]);
  if (!BUG) set_used(table.used | 1ull << slot);
  table.slot_of[name] = slot;
  PERSIST(table.slot_of[name]);
  if (BUG) set_used(table.used | 1ull << slot);
  if (before) set_used(table.used & ~(1ull << before));
}

int main(void) {
  recover();
  for (long long command; (command = read_i64());) {
    if (command == 1) {
      uint32_t name = (uint32_t)read_i64() % NAMES;
      put(name, (uint64_t)read_i64());
    } else {
      for (uint32_t name = 0; name < NAMES; name++)
        print_i64(table.slot_of[name] ? (long long)table.slots[table.slot_of[name]].value : -1);
    }
  }
  return 0;
}

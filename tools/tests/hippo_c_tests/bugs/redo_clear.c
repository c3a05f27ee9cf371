// Accounts and a redo log: both new balances, then the number of entries, then the balances in their places.
// Bug: the number becomes 0 before the balances in their places are durable.
#include "common.h"

#define ACCOUNTS 16

PERSISTENT struct {
  LINE uint64_t entries;
  LINE struct {
    uint64_t account, balance;
  } log[2];
  LINE uint64_t balances[ACCOUNTS];
} bank;

static void apply(void) {
  for (uint64_t entry = 0; entry < bank.entries; entry++) {
    uint64_t *balance = &bank.balances[bank.log[entry].account];
    *balance = bank.log[entry].balance;
    FLUSH(*balance);
  }
  if (!BUG) pmem_drain();
  bank.entries = 0;
  PERSIST(bank.entries);
}

static void recover(void) {
  uint64_t sum = 0;
  apply();
  for (int i = 0; i < ACCOUNTS; i++) sum += bank.balances[i];
  HOLDS(sum == 0);
}

static void transfer(uint64_t from, uint64_t to, uint64_t amount) {
  if (from == to) return;
  bank.log[0].account = from;
  bank.log[0].balance = bank.balances[from] - amount;
  bank.log[1].account = to;
  bank.log[1].balance = bank.balances[to] + amount;
  PERSIST(bank.log);
  bank.entries = 2;
  PERSIST(bank.entries);
  apply();
}

int main(void) {
  recover();
  for (long long command; (command = read_i64());) {
    if (command == 1) {
      uint64_t from = (uint64_t)read_i64() % ACCOUNTS, to = (uint64_t)read_i64() % ACCOUNTS;
      transfer(from, to, (uint64_t)read_i64());
    } else {
      for (int i = 0; i < ACCOUNTS; i++) print_i64((long long)bank.balances[i]);
    }
  }
  return 0;
}

// Accounts and an undo log, both in good order. Bug: recovery empties the log before the balances that it puts back are durable,
// so only a second power cut, in the recovery of the first one, loses them.
#include "common.h"

#define ACCOUNTS 16

PERSISTENT struct {
  LINE uint64_t entries;
  LINE struct {
    uint64_t account, balance;
  } log[4];
  LINE uint64_t balances[ACCOUNTS];
} bank;

static void undo(void) {
  for (uint64_t entry = bank.entries; entry-- > 0;) {
    uint64_t *balance = &bank.balances[bank.log[entry].account];
    *balance = bank.log[entry].balance;
    FLUSH(*balance);
  }
  if (!BUG) pmem_drain();
  bank.entries = 0;
  PERSIST(bank.entries);
}

static void recover(void) {
  if (bank.entries) undo();
  uint64_t sum = 0;
  for (int i = 0; i < ACCOUNTS; i++) sum += bank.balances[i];
  HOLDS(sum == 0);
}

static void save(uint64_t account) {
  bank.log[bank.entries].account = account;
  bank.log[bank.entries].balance = bank.balances[account];
  PERSIST(bank.log[bank.entries]);
  bank.entries++;
  PERSIST(bank.entries);
}

static void transfer(uint64_t from, uint64_t to, uint64_t amount) {
  if (from == to) return;
  save(from);
  save(to);
  bank.balances[from] -= amount;
  bank.balances[to] += amount;
  FLUSH(bank.balances[from]);
  FLUSH(bank.balances[to]);
  pmem_drain();
  bank.entries = 0;
  PERSIST(bank.entries);
}

int main(void) {
  recover();
  for (long long command; (command = read_i64());) {
    if (command == 1) {
      uint64_t from = (uint64_t)read_i64() % ACCOUNTS, to = (uint64_t)read_i64() % ACCOUNTS;
      transfer(from, to, (uint64_t)read_i64());
    } else {
      for (int i = 0; i < ACCOUNTS; i++) print_i64((long long)bank.balances[i]);
    }
  }
  return 0;
}

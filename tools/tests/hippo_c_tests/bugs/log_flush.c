// Accounts and an undo log. A transfer saves both old balances, changes them, and empties the log.
// Bug: the log is flushed together with the balances, so a power cut may keep a change and lose what undoes it.
#include "common.h"

#define ACCOUNTS 16

struct entry {
  uint64_t account, balance;
};

PERSISTENT struct {
  LINE uint64_t entries;
  struct entry log[3];
  LINE uint64_t balances[ACCOUNTS];
} bank;

static void recover(void) {
  while (bank.entries) {
    const struct entry *last = &bank.log[bank.entries - 1];
    uint64_t *balance = &bank.balances[last->account % ACCOUNTS];
    *balance = last->balance;
    PERSIST(*balance);
    bank.entries--;
    PERSIST(bank.entries);
  }
  uint64_t sum = 0;
  for (int i = 0; i < ACCOUNTS; i++) sum += bank.balances[i];
  HOLDS(sum == 0);
}

static void save(uint64_t account) {
  struct entry *entry = &bank.log[bank.entries];
  entry->account = account;
  entry->balance = bank.balances[account];
  if (!BUG) PERSIST(*entry);
  bank.entries++;
  if (!BUG) PERSIST(bank.entries);
}

static void transfer(uint64_t from, uint64_t to, uint64_t amount) {
  if (from == to) return;
  save(from);
  save(to);
  bank.balances[from] -= amount;
  bank.balances[to] += amount;
  FLUSH(bank.balances[from]);
  FLUSH(bank.balances[to]);
  if (BUG) pmem_flush(&bank, 64);
  pmem_drain();
  bank.entries = 0;
  PERSIST(bank.entries);
}

int main(void) {
  recover();
  for (long long command; (command = read_i64());) {
    if (command == 1) {
      uint64_t from = (uint64_t)read_i64() % ACCOUNTS, to = (uint64_t)read_i64() % ACCOUNTS;
      transfer(from, to, (uint64_t)read_i64());
    } else {
      for (int i = 0; i < ACCOUNTS; i++) print_i64((long long)bank.balances[i]);
    }
  }
  return 0;
}

// Accounts and an undo log with an entry for each change. Bug: recovery goes from the oldest entry to the newest, so an account that
// changed twice gets its balance from between the two changes. No input shows it that does not name an account twice in one payment.
#include "common.h"

#define ACCOUNTS 8

PERSISTENT struct {
  LINE uint64_t entries;
  LINE struct {
    uint64_t account, balance;
  } log[8];
  LINE uint64_t balances[ACCOUNTS];
} bank;

static void empty_log(void) {
  bank.entries = 0;
  PERSIST(bank.entries);
}

static void recover(void) {
  for (uint64_t i = 0; i < bank.entries; i++) {
    uint64_t entry = BUG ? i : bank.entries - 1 - i;
    bank.balances[bank.log[entry].account % ACCOUNTS] = bank.log[entry].balance;
  }
  PERSIST(bank.balances);
  empty_log();
  uint64_t sum = 0;
  for (int i = 0; i < ACCOUNTS; i++) sum += bank.balances[i];
  HOLDS(sum == 0);
}

static void change(uint64_t account, uint64_t by) {
  bank.log[bank.entries].account = account;
  bank.log[bank.entries].balance = bank.balances[account];
  PERSIST(bank.log[bank.entries]);
  bank.entries++;
  PERSIST(bank.entries);
  bank.balances[account] += by;
  PERSIST(bank.balances[account]);
}

static void pay_two(uint64_t from, uint64_t one, uint64_t other, uint64_t amount) {
  change(from, 0 - 2 * amount);
  change(one, amount);
  change(other, amount);
  empty_log();
}

static uint64_t read_account(void) { return (uint64_t)read_i64() % ACCOUNTS; }

int main(void) {
  recover();
  for (long long command; (command = read_i64());) {
    if (command == 1) {
      uint64_t from = read_account(), one = read_account(), other = read_account();
      pay_two(from, one, other, (uint64_t)read_i64());
    } else {
      for (int i = 0; i < ACCOUNTS; i++) print_i64((long long)bank.balances[i]);
    }
  }
  return 0;
}

// Transfers between accounts, with an undo log. Before the program changes a balance, it writes the old value into the
// log and increments the log's count. It sets the count back to 0 when both new balances are durable. After a crash
// `roll_back` restores the balances that an unfinished transfer changed.
//
// The bug: `remember` flushes the entry, but no fence comes between this flush and the store of the count. So the count
// may reach memory first.
#include <hippo.h>
#include <stdint.h>

enum { ACCOUNTS = 8, ENTRIES = 8 };

struct entry {
  uint64_t account;
  int64_t balance;
};

struct undo {
  _Alignas(64) uint64_t count;
  _Alignas(64) struct entry entries[ENTRIES];
};

PERSISTENT _Alignas(64) int64_t balances[ACCOUNTS] = {100, 100, 100, 100, 100, 100, 100, 100};
PERSISTENT struct undo undo;

static void set_count(uint64_t count) {
  undo.count = count;
  pmem_persist(&undo.count, sizeof undo.count);
}

static void remember(uint64_t account) {
  struct entry *entry = &undo.entries[undo.count];
  entry->account = account;
  entry->balance = balances[account];
  pmem_flush(entry, sizeof *entry);
  pm_assert(entry, sizeof *entry);
  set_count(undo.count + 1);
}

static void roll_back(void) {
  while (undo.count != 0) {
    const struct entry *entry = &undo.entries[undo.count - 1];
    balances[entry->account] = entry->balance;
    pmem_persist(&balances[entry->account], sizeof(int64_t));
    set_count(undo.count - 1);
  }
}

static int transfer(uint64_t from, uint64_t to, int64_t amount) {
  if (from >= ACCOUNTS || to >= ACCOUNTS || amount < 0 || balances[from] < amount) {
    return 0;
  }
  remember(from);
  remember(to);
  balances[from] -= amount;
  balances[to] += amount;
  pmem_flush(&balances[from], sizeof(int64_t));
  pmem_flush(&balances[to], sizeof(int64_t));
  pmem_drain();
  set_count(0);
  return 1;
}

// Reads the number of transfers, and for each transfer the two accounts and the amount. Prints for each whether it was
// made, and then the balances.
int main(void) {
  roll_back();
  int64_t wanted = read_i64();
  for (int64_t i = 0; i < wanted; i++) {
    uint64_t from = (uint64_t)read_i64();
    uint64_t to = (uint64_t)read_i64();
    print_i64(transfer(from, to, read_i64()));
  }
  for (int i = 0; i < ACCOUNTS; i++) {
    print_i64(balances[i]);
  }
  return 0;
}

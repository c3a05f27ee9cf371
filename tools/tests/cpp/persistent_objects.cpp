// Persistent objects that are there before the program starts, one with a destructor; addresses of them in what is made at the start.
#include <hippo.h>
struct Table {
  long count;
  long items[4];
  constexpr explicit Table(long first) : count(1), items{first} {}
  ~Table() { print_i64(-count); }
  long size() const { return count; }
  void put(long item) {
    items[count] = item;
    pmem_persist(&items[count], sizeof items[count]);
    count++;
    pmem_persist(&count, sizeof count);
  }
};
PERSISTENT constinit static Table table(5);
PERSISTENT constinit static Table rows[2] = {Table(1), Table(2)};
static long before = table.size();
struct Reader {
  const Table *from;
  long start;
  Reader(const Table *table, long number) : from(table), start(number) {}
};
static Reader reader(&table, read_i64());
static Table *chosen = &rows[0] + read_i64();

// input: 3 1
int main() {
  table.put(7);
  chosen->put(9);
  print_i64(reader.from->items[1] * 100 + reader.start * 10 + before);
  print_i64(rows[1].items[1] + rows[0].count);
  return 0;
}

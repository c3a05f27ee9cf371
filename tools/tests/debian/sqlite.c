// SQLite over a persistent heap: a database in memory, with inserts, an index, an update, deletes and selects.
#include <hippo.h>
#include <stddef.h>
#include "sqlite3.h"

enum { HEAP = 8 << 20, LEAST = 64, ROWS = 40 };

PERSISTENT _Alignas(64) static char heap[HEAP];

static const char *const script[] = {
    "create table items(id integer primary key, name text, amount integer)",
    "create index by_name on items(name)",
    "with recursive n(i) as (select 1 union all select i + 1 from n where i < 40) "
    "insert into items select i, 'item ' || (i * 7 % 40), i * i from n",
    "update items set amount = amount + 1 where id % 3 = 0",
    "delete from items where id between 10 and 14",
    "select count(*), sum(amount), max(name) from items",
    "select id, name, amount from items where name like 'item 1%' order by name, id desc limit 8",
    "select amount % 5, count(*) from items group by 1 order by 1",
};

// Prints a sum of the texts of a row.
static int print_row(void *count, int columns, char **values, char **names) {
  long long sum = 0;
  (void)names;
  for (int i = 0; i < columns; i++)
    for (const char *c = values[i] ? values[i] : "null"; *c; c++) sum = (sum * 31 + *c) % 1000000007;
  ++*(int *)count;
  print_i64(sum);
  return 0;
}

int main(void) {
  sqlite3 *data;
  int count = 0;
  if (sqlite3_config(SQLITE_CONFIG_HEAP, heap, HEAP, LEAST) || sqlite3_open(":memory:", &data)) return 1;
  for (size_t i = 0; i < sizeof script / sizeof *script; i++)
    if (sqlite3_exec(data, script[i], print_row, &count, NULL)) return 2;
  print_i64(count);
  return sqlite3_close(data);
}

// LMDB: transactions that put, delete and look up, with its map written in place.
#include "draw.h"
#include "lmdb.h"
#include <stdio.h>

static MDB_env *env;
static MDB_dbi table;

static void check(int result) {
  if (result) print_i64(-result);
}

static void fill(MDB_txn *txn, unsigned count) {
  for (unsigned i = 0; i < count; i++) {
    char key[16], value[40];
    MDB_val k = {(size_t)snprintf(key, sizeof key, "key%u", draw(400)), key};
    MDB_val v = {(size_t)snprintf(value, sizeof value, "value %u of %u", i, draw(1000)), value};
    check(mdb_put(txn, table, &k, &v, 0));
    if (draw(4) == 0) {
      k.mv_size = (size_t)snprintf(key, sizeof key, "key%u", draw(400));
      int result = mdb_del(txn, table, &k, NULL);
      if (result != MDB_NOTFOUND) check(result);
    }
  }
}

static void print_table(void) {
  MDB_txn *txn;
  MDB_cursor *cursor;
  MDB_val key, value;
  long long count = 0, sum = 0;
  check(mdb_txn_begin(env, NULL, MDB_RDONLY, &txn));
  check(mdb_cursor_open(txn, table, &cursor));
  while (mdb_cursor_get(cursor, &key, &value, MDB_NEXT) == 0) {
    count++;
    for (size_t i = 0; i < value.mv_size; i++) sum = sum * 31 % 1000003 + ((unsigned char *)value.mv_data)[i];
  }
  mdb_cursor_close(cursor);
  MDB_stat stat;
  check(mdb_stat(txn, table, &stat));
  mdb_txn_abort(txn);
  print_i64(count);
  print_i64(sum);
  print_i64(stat.ms_depth);
  print_i64((long long)stat.ms_leaf_pages);
}

int main(void) {
  MDB_txn *txn;
  check(mdb_env_create(&env));
  check(mdb_env_set_mapsize(env, 1 << 20));
  check(mdb_env_open(env, "data.mdb", MDB_NOSUBDIR | MDB_NOLOCK | MDB_FLAGS, 0644));
  for (int round = 0; round < 4; round++) {
    check(mdb_txn_begin(env, NULL, 0, &txn));
    check(mdb_dbi_open(txn, NULL, 0, &table));
    fill(txn, 100);
    if (round == 2) {
      mdb_txn_abort(txn);
      continue;
    }
    check(mdb_txn_commit(txn));
    print_table();
  }
  mdb_env_close(env);
  return 0;
}

// uthash: a hash table of structs, in persistent memory.
#include "draw.h"
#include "uthash.h"
#include <stdio.h>

struct user {
  int id;
  char name[12];
  UT_hash_handle by_id, by_name;
};

static int order(const struct user *left, const struct user *right) { return left->id - right->id; }

int main(void) {
  struct user *ids = NULL, *names = NULL, *user, *next;
  for (int i = 0, rounds = ROUNDS(500); i < rounds; i++) {
    int id = (int)draw(250);
    HASH_FIND(by_id, ids, &id, sizeof id, user);
    if (!user) {
      user = calloc(1, sizeof *user);
      user->id = id;
      snprintf(user->name, sizeof user->name, "user %d", id);
      HASH_ADD(by_id, ids, id, sizeof user->id, user);
      HASH_ADD_KEYPTR(by_name, names, user->name, strlen(user->name), user);
    } else if (draw(3) == 0) {
      HASH_DELETE(by_id, ids, user);
      HASH_DELETE(by_name, names, user);
      free(user);
    }
  }
  print_i64(HASH_CNT(by_id, ids));
  HASH_FIND(by_name, names, "user 77", 7, user);
  print_i64(user ? user->id : -1);
  HASH_SRT(by_id, ids, order);
  long long sum = 0;
  HASH_ITER(by_id, ids, user, next) sum = (sum * 31 + user->id) % 1000000007;
  print_i64(sum);
  HASH_CLEAR(by_name, names);
  HASH_CLEAR(by_id, ids);
  print_i64(ids == NULL);
  return 0;
}

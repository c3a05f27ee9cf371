// A list to which nodes are added at its head. Bug: the head points to a node whose content is flushed only later.
#include "common.h"

#define MOST 32

struct node {
  LINE uint64_t key;
  uint64_t opposite;
  struct node *next;
};

PERSISTENT struct {
  LINE struct node *head;
  LINE uint64_t used;
  struct node nodes[MOST];
} list;

static void recover(void) {
  for (const struct node *node = list.head; node; node = node->next) HOLDS(node->opposite == ~node->key);
}

static void push(uint64_t key) {
  if (list.used == MOST) return;
  struct node *node = &list.nodes[list.used];
  list.used++;
  PERSIST(list.used);
  node->key = key;
  node->opposite = ~key;
  node->next = list.head;
  if (!BUG) PERSIST(*node);
  list.head = node;
  PERSIST(list.head);
  if (BUG) PERSIST(*node);
}

int main(void) {
  recover();
  for (long long command; (command = read_i64());) {
    if (command == 1) push((uint64_t)read_i64());
    else
      for (const struct node *node = list.head; node; node = node->next) print_i64((long long)node->key);
  }
  return 0;
}

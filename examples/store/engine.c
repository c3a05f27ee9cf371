// A set of numbers in slots, a search tree of them, and a journal. Each call is durable when it returns.
#include "engine.h"

#include <hippo.h>

PERSISTENT struct slot {
  long number, used;
} slots[SLOTS];
PERSISTENT struct node {
  long number, left, right;
} nodes[SLOTS];
PERSISTENT long root; // the number of a node, from 1; 0 if the tree is empty
PERSISTENT long nodes_used;
PERSISTENT struct {
  long count;
  long numbers[SLOTS];
} journal;

static void persist(const void *from, size_t size) { pmem_persist(from, size); }

static void append(long number) {
  long *at = &journal.numbers[journal.count % SLOTS];
  *at = number;
  persist(at, sizeof *at);
  journal.count++;
  persist(&journal.count, sizeof journal.count);
}

int put(long number) {
  for (int i = 0; i < SLOTS; i++) {
    struct slot *slot = &slots[i];
    if (slot->used)
      continue;
    slot->number = number;
    persist(&slot->number, sizeof slot->number);
    slot->used = 1;
    persist(&slot->used, sizeof slot->used);
    append(number);
    return 1;
  }
  return 0;
}

int del(long number) {
  for (int i = 0; i < SLOTS; i++) {
    struct slot *slot = &slots[i];
    if (!slot->used || slot->number != number)
      continue;
    slot->used = 0;
    persist(&slot->used, sizeof slot->used);
    append(-number);
    return 1;
  }
  return 0;
}

void tree_insert(long number) {
  long *link = &root;
  while (*link)
    link = number < nodes[*link - 1].number ? &nodes[*link - 1].left : &nodes[*link - 1].right;
  if (nodes_used == SLOTS)
    return;
  struct node *node = &nodes[nodes_used];
  node->number = number;
  persist(node, sizeof *node);
  nodes_used++;
  persist(&nodes_used, sizeof nodes_used);
  *link = nodes_used;
  persist(link, sizeof *link);
}

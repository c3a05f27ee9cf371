// The red-black tree of btrfs-progs, over nodes in persistent memory.
#include "draw.h"
#include "kernel-lib/rbtree.h"

struct item {
  struct rb_node node;
  int key, count;
};

PERSISTENT static struct rb_root root;
PERSISTENT static struct item items[300];

static void insert(struct item *item) {
  struct rb_node **link = &root.rb_node, *parent = NULL;
  while (*link) {
    parent = *link;
    link = item->key < rb_entry(parent, struct item, node)->key ? &parent->rb_left : &parent->rb_right;
  }
  rb_link_node(&item->node, parent, link);
  rb_insert_color(&item->node, &root);
}

int main(void) {
  static int is_in[300];
  for (int i = 0, rounds = ROUNDS(900); i < rounds; i++) {
    unsigned number = draw(300);
    if (is_in[number]) {
      rb_erase(&items[number].node, &root);
    } else {
      items[number].key = (int)draw(1000);
      items[number].count = i;
      insert(&items[number]);
    }
    is_in[number] = !is_in[number];
  }
  long long sum = 0, count = 0;
  for (struct rb_node *node = rb_first(&root); node; node = rb_next(node), count++) {
    struct item *item = rb_entry(node, struct item, node);
    sum = (sum * 31 + item->key + item->count) % 1000000007;
  }
  print_i64(count);
  print_i64(sum);
  return 0;
}

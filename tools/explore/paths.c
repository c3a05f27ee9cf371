// The calls that led to an event: a tree whose nodes have a call and the calls outside it.
#include "engine.h"

struct node {
  u32 parent, call, depth;
  u64 key;
};

static struct node *nodes;
static u32 *table, node_count;
static const u32 TABLE_MASK = 2 * MOST_PATHS - 1;

void make_paths(void) {
  nodes = reserved(MOST_PATHS * sizeof *nodes);
  table = reserved(2ull * MOST_PATHS * sizeof *table);
  node_count = ROOT + 1;
}

static int occurs(u32 node, u32 call) {
  for (; node > ROOT; node = nodes[node].parent)
    if (nodes[node].call == call) return 1;
  return 0;
}

// The node of a call inside a node. When the table is full, the node itself: the groups of reports are then coarser.
static u32 child(u32 parent, u32 call) {
  u32 at = (u32)mixed(parent, call) & TABLE_MASK;
  for (; table[at]; at = (at + 1) & TABLE_MASK)
    if (nodes[table[at]].parent == parent && nodes[table[at]].call == call) return table[at];
  if (node_count == MOST_PATHS) return parent;
  u64 key = occurs(parent, call) ? nodes[parent].key : mixed(nodes[parent].key, call + 1);
  nodes[node_count] = (struct node){parent, call, nodes[parent].depth + 1, key};
  return table[at] = node_count++;
}

u32 current_path(void) {
  u32 depth = hippo_hook_state.depth, known = depth;
  while (known > 0 && !hippo_hook_frames[known - 1].path) known--;
  u32 node = known ? hippo_hook_frames[known - 1].path : ROOT;
  for (; known < depth; known++) node = hippo_hook_frames[known].path = child(node, hippo_hook_frames[known].call);
  return node;
}

u32 path_parent(u32 path) { return nodes[path].parent; }
u32 path_call(u32 path) { return nodes[path].call; }
u32 path_depth(u32 path) { return nodes[path].depth; }
u64 path_key(u32 path) { return nodes[path].key; }

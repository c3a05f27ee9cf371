// The trie of what runs from images read.
#include <stdlib.h>
#include <string.h>

#include "trie.h"

#define MOST_NODES (1u << 22)
#define MOST_LEAVES (1u << 18)

struct edge {
  u32 from, to;
  u64 value;
};

struct node *trie;
struct leaf *leaves;
u32 leaf_count;
static struct edge *edges;
static u32 *used_edges, edge_count, node_count;
static const u32 EDGE_TABLE_MASK = 2 * MOST_NODES - 1;

void make_trie(void) {
  trie = reserved(MOST_NODES * sizeof *trie);
  leaves = reserved(MOST_LEAVES * sizeof *leaves);
  edges = reserved(2ull * MOST_NODES * sizeof *edges);
  used_edges = reserved(MOST_NODES * sizeof *used_edges);
  clear_trie();
}

void clear_trie(void) {
  for (u32 i = 0; i < edge_count; i++) edges[used_edges[i]].to = 0;
  for (u32 i = 1; i <= leaf_count; i++) free(leaves[i].events), free(leaves[i].reads);
  edge_count = leaf_count = 0;
  node_count = TRIE_ROOT + 1;
  trie[TRIE_ROOT] = (struct node){.state = UNKNOWN};
}

int is_trie_nearly_full(void) { return node_count > MOST_NODES / 4 * 3 || leaf_count > MOST_LEAVES / 4 * 3; }

static u32 place_of(u32 node, u64 value) {
  u32 at = (u32)mixed(node, value) & EDGE_TABLE_MASK;
  while (edges[at].to && (edges[at].from != node || edges[at].value != value)) at = (at + 1) & EDGE_TABLE_MASK;
  return at;
}

u32 trie_child(u32 node, u64 value) { return edges[place_of(node, value)].to; }

static u32 added_child(u32 node, u64 value) {
  u32 at = place_of(node, value);
  if (edges[at].to) return edges[at].to;
  if (node_count == MOST_NODES) return 0;
  edges[at] = (struct edge){node, node_count, value};
  used_edges[edge_count++] = at;
  trie[node_count] = (struct node){.state = UNKNOWN};
  return node_count++;
}

static int make_leaf(struct node *node) {
  if (leaf_count + 1 == MOST_LEAVES) return 0;
  node->state = LEAF;
  node->leaf = ++leaf_count;
  leaves[leaf_count] = (struct leaf){.ending = last_run.ending, .status = last_run.status, .site = last_run.site, .path = last_run.path};
  return 1;
}

u32 trie_start(u64 told) { return added_child(TRIE_ROOT, told); }

u32 add_last_run(u32 start) {
  u32 at = start;
  for (u32 i = 0; i < read_count && at; i++) {
    if (trie[at].state == UNKNOWN) trie[at] = (struct node){READS, reads[i].line, 0, reads[i].mask};
    at = added_child(at, reads[i].value);
  }
  if (!at) return 0;
  if (trie[at].state == UNKNOWN && !make_leaf(&trie[at])) return 0;
  return at;
}

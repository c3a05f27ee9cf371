// The trie of what runs from images read. A node is the next read of the runs that come to it, an edge the value that was read, and a leaf a
// behaviour: the runs of all images that agree on these reads are one run.
#ifndef TRIE_H
#define TRIE_H

#include "engine.h"

enum node_state { UNKNOWN, READS, LEAF };

struct node {
  u8 state;
  u32 line, leaf;
  u64 mask;
};

// How a run ended, its events up to the end of its recovery, for crashes in that recovery, and what it read if that is shown. It is undecided
// whether a run ends that the limit cut, if it was not followed further.
struct leaf {
  enum ending ending;
  int status;
  u32 site, path, event_count, read_count;
  struct event *events;
  struct read *reads;
  u8 is_failing, is_undecided;
};

extern struct node *trie;
extern struct leaf *leaves;
extern u32 leaf_count;

#define TRIE_ROOT 1u
void make_trie(void);
void clear_trie(void);
int is_trie_nearly_full(void);
u32 trie_start(u64 told);            // where runs begin that are told this number; 0 if there is no room
u32 trie_child(u32 node, u64 value); // 0 if there is none
u32 add_last_run(u32 start);         // the leaf node of the last run; 0 if there is no room
#endif

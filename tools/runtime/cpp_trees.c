// The red-black tree below std::map and std::set: what libstdc++ has outside of its headers. The header's node is the parent of the
// root; its left and right are the first and the last node.
#include <stdbool.h>
#include <stddef.h>

enum colour { RED, BLACK };

struct node {
  enum colour colour;
  struct node *parent, *left, *right;
};

static struct node *next(struct node *at) {
  if (at->right) {
    for (at = at->right; at->left;) at = at->left;
    return at;
  }
  struct node *above = at->parent;
  while (at == above->right) at = above, above = above->parent;
  return at->right == above ? at : above; // the header follows the last node, also where the last one is the root
}

static struct node *previous(struct node *at) {
  if (at->colour == RED && at->parent->parent == at) return at->right; // the header
  if (at->left) {
    for (at = at->left; at->right;) at = at->right;
    return at;
  }
  struct node *above = at->parent;
  while (at == above->left) at = above, above = above->parent;
  return above;
}

struct node *_ZSt18_Rb_tree_incrementPSt18_Rb_tree_node_base(struct node *at) { return next(at); }
const struct node *_ZSt18_Rb_tree_incrementPKSt18_Rb_tree_node_base(const struct node *at) { return next((struct node *)at); }
struct node *_ZSt18_Rb_tree_decrementPSt18_Rb_tree_node_base(struct node *at) { return previous(at); }
const struct node *_ZSt18_Rb_tree_decrementPKSt18_Rb_tree_node_base(const struct node *at) {
  return previous((struct node *)at);
}

// Puts a node, or nothing, in the place of another one.
static void replace(struct node *header, struct node *old, struct node *new) {
  if (old == header->parent) header->parent = new;
  else if (old == old->parent->left) old->parent->left = new;
  else old->parent->right = new;
  if (new) new->parent = old->parent;
}

static void rotate_left(struct node *header, struct node *at) {
  struct node *up = at->right;
  at->right = up->left;
  if (up->left) up->left->parent = at;
  replace(header, at, up);
  up->left = at;
  at->parent = up;
}

static void rotate_right(struct node *header, struct node *at) {
  struct node *up = at->left;
  at->left = up->right;
  if (up->right) up->right->parent = at;
  replace(header, at, up);
  up->right = at;
  at->parent = up;
}

void _ZSt29_Rb_tree_insert_and_rebalancebPSt18_Rb_tree_node_baseS0_RS_(bool left, struct node *at, struct node *above,
                                                                      struct node *header) {
  at->parent = above;
  at->left = at->right = NULL;
  at->colour = RED;
  if (left) {
    above->left = at; // where the tree is empty, this is the first node
    if (above == header) header->parent = header->right = at;
    else if (above == header->left) header->left = at;
  } else {
    above->right = at;
    if (above == header->right) header->right = at;
  }
  while (at != header->parent && at->parent->colour == RED) {
    struct node *parent = at->parent, *grand = parent->parent;
    bool is_left = parent == grand->left;
    struct node *uncle = is_left ? grand->right : grand->left;
    if (uncle && uncle->colour == RED) {
      parent->colour = uncle->colour = BLACK;
      grand->colour = RED;
      at = grand;
    } else if (is_left) {
      if (at == parent->right) rotate_left(header, parent), at = parent, parent = at->parent;
      parent->colour = BLACK;
      grand->colour = RED;
      rotate_right(header, grand);
    } else {
      if (at == parent->left) rotate_right(header, parent), at = parent, parent = at->parent;
      parent->colour = BLACK;
      grand->colour = RED;
      rotate_left(header, grand);
    }
  }
  header->parent->colour = BLACK;
}

static struct node *least(struct node *at) {
  while (at->left) at = at->left;
  return at;
}

static struct node *greatest(struct node *at) {
  while (at->right) at = at->right;
  return at;
}

static bool is_black(struct node *at) { return !at || at->colour == BLACK; }

// Restores the colours after a black node was taken out below `above`, where `at` is now.
static void repair(struct node *header, struct node *at, struct node *above) {
  while (at != header->parent && is_black(at)) {
    bool is_left = at == above->left;
    struct node *other = is_left ? above->right : above->left;
    if (other->colour == RED) {
      other->colour = BLACK;
      above->colour = RED;
      if (is_left) rotate_left(header, above), other = above->right;
      else rotate_right(header, above), other = above->left;
    }
    if (is_black(other->left) && is_black(other->right)) {
      other->colour = RED;
      at = above;
      above = above->parent;
      continue;
    }
    if (is_left) {
      if (is_black(other->right)) {
        other->left->colour = BLACK;
        other->colour = RED;
        rotate_right(header, other);
        other = above->right;
      }
      other->colour = above->colour;
      above->colour = BLACK;
      other->right->colour = BLACK;
      rotate_left(header, above);
    } else {
      if (is_black(other->left)) {
        other->right->colour = BLACK;
        other->colour = RED;
        rotate_left(header, other);
        other = above->left;
      }
      other->colour = above->colour;
      above->colour = BLACK;
      other->left->colour = BLACK;
      rotate_right(header, above);
    }
    break;
  }
  if (at) at->colour = BLACK;
}

struct node *_ZSt28_Rb_tree_rebalance_for_erasePSt18_Rb_tree_node_baseRS_(struct node *gone, struct node *header) {
  struct node *at, *above;
  enum colour lost = gone->colour;
  if (gone->left && gone->right) {
    struct node *heir = least(gone->right);
    lost = heir->colour;
    at = heir->right;
    above = heir->parent == gone ? heir : heir->parent;
    if (heir->parent != gone) {
      replace(header, heir, at);
      heir->right = gone->right;
      heir->right->parent = heir;
    }
    replace(header, gone, heir);
    heir->left = gone->left;
    heir->left->parent = heir;
    heir->colour = gone->colour;
  } else {
    at = gone->left ? gone->left : gone->right;
    above = gone->parent;
    replace(header, gone, at);
    if (header->left == gone) header->left = at ? least(at) : above;
    if (header->right == gone) header->right = at ? greatest(at) : above;
  }
  if (lost == BLACK) repair(header, at, above);
  return gone;
}

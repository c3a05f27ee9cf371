// An ordered store of texts, by number, in one file of persistent memory: an allocator, and a B+ tree over it. Commands are
// numbers of the input. When a command ends, all that it changed must be durable; the pm_assert in run_commands checks this.
//
// It has three bugs, one of each kind:
// - Missing flushes: give_block stores the next block of a free list, and flushes only the list's head; close_gap flushes nothing.
// - A missing fence: count_keys flushes the number of keys, and no fence comes after it.
// - A shared helper: open_gap was written for arrays in volatile memory, such as the results of a search, and flushes nothing. The
//   tree also uses it to make room in its persistent nodes.
#include <hippo.h>
#include <stdint.h>
#include <stdio.h>
#include <stdlib.h>
#include <string.h>

// <libpmem.h> has these two.
void *pmem_map_file(const char *path, size_t length, int flags, unsigned mode, size_t *mapped, int *is_pmem);
int pmem_unmap(void *address, size_t length);

enum { CREATE = 1, POOL_SIZE = 1 << 16, MAGIC = 0x73746f72 };
enum { CLASSES = 6, SMALLEST = 32 };          // blocks of 32 to 1,024 bytes
enum { KEYS = 14, LEAST = KEYS / 2, HALF = KEYS / 2 }; // of a node

// The file. A place is an offset from its start; 0 is no place.
struct pool {
  uint64_t magic, used;
  uint64_t root, count;
  uint64_t free_blocks[CLASSES];
};

struct block {
  uint64_t class, next;
};

// A node of 256 bytes. A leaf has a text for each key, and the next leaf. An inner node has one child more than keys; the
// keys of child i are below keys[i].
struct node {
  uint64_t is_leaf, count, next;
  uint64_t keys[KEYS], links[KEYS + 1];
};

struct text {
  uint32_t length, sum;
  char bytes[];
};

struct store {
  struct pool *pool;
  size_t mapped;
};

// Results of a search, in volatile memory, in the order of its comparison.
struct results {
  uint64_t *keys;
  size_t count, room;
  int (*compare)(const struct store *store, uint64_t left, uint64_t right);
};

static void *at(const struct store *store, uint64_t place) { return (char *)store->pool + place; }

static struct node *node_at(const struct store *store, uint64_t place) { return at(store, place); }

// --- arrays of words

// Moves the words at and after a place up by one, to make room at the place.
static void open_gap(uint64_t *words, uint64_t count, uint64_t place) {
  for (uint64_t i = count; i > place; i--) words[i] = words[i - 1];
}

// Moves the words after a place down by one, over the word at the place.
static void close_gap(uint64_t *words, uint64_t count, uint64_t place) {
  for (uint64_t i = place; i + 1 < count; i++) words[i] = words[i + 1];
}

// --- the allocator

static uint64_t class_of(size_t size) {
  uint64_t class = 0;
  while (((size_t)SMALLEST << class) < size + sizeof(struct block)) class++;
  return class;
}

static struct block *block_of(const struct store *store, uint64_t place) {
  return (struct block *)at(store, place) - 1;
}

// The place of memory of this size, or 0 if the file has no room.
static uint64_t take_block(struct store *store, size_t size) {
  struct pool *pool = store->pool;
  uint64_t class = class_of(size), place;
  if (class >= CLASSES) return 0;
  if (pool->free_blocks[class]) {
    place = pool->free_blocks[class];
    pool->free_blocks[class] = block_of(store, place)->next;
    pmem_persist(&pool->free_blocks[class], sizeof pool->free_blocks[class]);
    return place;
  }
  uint64_t whole = (uint64_t)SMALLEST << class;
  if (pool->used + whole > POOL_SIZE) return 0;
  place = pool->used + sizeof(struct block);
  block_of(store, place)->class = class;
  pmem_persist(block_of(store, place), sizeof(struct block));
  pool->used += whole;
  pmem_persist(&pool->used, sizeof pool->used);
  return place;
}

static void give_block(struct store *store, uint64_t place) {
  struct block *block = block_of(store, place);
  uint64_t *head = &store->pool->free_blocks[block->class];
  block->next = *head;
  *head = place;
  pmem_persist(head, sizeof *head);
}

// --- texts

static uint32_t sum_of(const char *bytes, uint32_t length) {
  uint32_t sum = 2166136261u;
  for (uint32_t i = 0; i < length; i++) sum = (sum ^ (unsigned char)bytes[i]) * 16777619u;
  return sum;
}

static uint64_t write_text(struct store *store, const char *bytes) {
  uint32_t length = (uint32_t)strlen(bytes);
  uint64_t place = take_block(store, sizeof(struct text) + length);
  if (!place) return 0;
  struct text *text = at(store, place);
  text->length = length;
  text->sum = sum_of(bytes, length);
  memcpy(text->bytes, bytes, length);
  pmem_persist(text, sizeof *text + length);
  return place;
}

static int is_whole(const struct text *text) { return text->sum == sum_of(text->bytes, text->length); }

// --- nodes

static void persist_node(struct node *node) { pmem_persist(node, sizeof *node); }

static uint64_t make_node(struct store *store, int is_leaf) {
  uint64_t place = take_block(store, sizeof(struct node));
  if (!place) return 0;
  struct node *node = node_at(store, place);
  memset(node, 0, sizeof *node);
  node->is_leaf = (uint64_t)is_leaf;
  persist_node(node);
  return place;
}

// The number of keys below this one.
static uint64_t keys_below(const struct node *node, uint64_t key) {
  uint64_t place = 0;
  while (place < node->count && node->keys[place] < key) place++;
  return place;
}

static uint64_t child_for(const struct node *node, uint64_t key) {
  uint64_t place = keys_below(node, key);
  return place < node->count && node->keys[place] == key ? place + 1 : place;
}

// Puts a key into a node with room, with its link: in a leaf beside the key, in an inner node after it.
static void insert_key(struct node *node, uint64_t place, uint64_t key, uint64_t link) {
  uint64_t after = node->is_leaf ? 0 : 1;
  open_gap(node->keys, node->count, place);
  open_gap(node->links, node->count + after, place + after);
  node->keys[place] = key;
  node->links[place + after] = link;
  pmem_persist(&node->keys[place], sizeof node->keys[place]);
  pmem_persist(&node->links[place + after], sizeof node->links[place + after]);
  node->count++;
  pmem_persist(&node->count, sizeof node->count);
}

static void remove_key(struct node *node, uint64_t place) {
  uint64_t after = node->is_leaf ? 0 : 1;
  close_gap(node->keys, node->count, place);
  close_gap(node->links, node->count + after, place + after);
  node->count--;
  pmem_persist(&node->count, sizeof node->count);
}

// The result of an insertion into a full node: the new node to the right of it, and the key between the two.
struct split {
  uint64_t key, right;
};

// Moves the upper half of a full node into a new one.
static int split_node(struct store *store, struct node *node, struct split *split) {
  uint64_t kept = node->is_leaf ? 0 : 1;
  split->right = make_node(store, (int)node->is_leaf);
  if (!split->right) return 0;
  struct node *right = node_at(store, split->right);
  right->count = node->count - HALF - kept;
  memcpy(right->keys, node->keys + HALF + kept, right->count * sizeof *right->keys);
  memcpy(right->links, node->links + HALF + kept, (right->count + kept) * sizeof *right->links);
  right->next = node->next;
  persist_node(right);
  split->key = node->keys[HALF];
  node->count = HALF;
  if (node->is_leaf) node->next = split->right;
  pmem_persist(node, sizeof *node);
  return 1;
}

// Puts a key and its link into a node, and splits the node if it is full. Returns 0 if the file has no room.
static int insert_or_split(struct store *store, struct node *node, uint64_t key, uint64_t link, struct split *split) {
  if (node->count == KEYS) {
    if (!split_node(store, node, split)) return 0;
    if (key >= split->key) node = node_at(store, split->right);
  }
  insert_key(node, keys_below(node, key), key, link);
  return 1;
}

// --- the tree

static void count_keys(struct store *store, int64_t more) {
  store->pool->count += (uint64_t)more;
  pmem_flush(&store->pool->count, sizeof store->pool->count);
}

// The leaf that has a key, or would have it; a null pointer if the tree is empty.
static struct node *leaf_for(const struct store *store, uint64_t key) {
  if (!store->pool->root) return NULL;
  struct node *node = node_at(store, store->pool->root);
  while (!node->is_leaf) node = node_at(store, node->links[child_for(node, key)]);
  return node;
}

// The link beside a key, or a null pointer.
static uint64_t *find(const struct store *store, uint64_t key) {
  struct node *leaf = leaf_for(store, key);
  if (!leaf) return NULL;
  uint64_t place = keys_below(leaf, key);
  return place < leaf->count && leaf->keys[place] == key ? &leaf->links[place] : NULL;
}

static int insert_below(struct store *store, uint64_t place, uint64_t key, uint64_t link, struct split *split) {
  struct node *node = node_at(store, place);
  if (node->is_leaf) return insert_or_split(store, node, key, link, split);
  struct split below = {0, 0};
  if (!insert_below(store, node->links[child_for(node, key)], key, link, &below)) return 0;
  return below.right ? insert_or_split(store, node, below.key, below.right, split) : 1;
}

static int set_root(struct store *store, uint64_t root) {
  store->pool->root = root;
  pmem_persist(&store->pool->root, sizeof store->pool->root);
  return root != 0;
}

static int insert(struct store *store, uint64_t key, uint64_t link) {
  struct split split = {0, 0};
  if (!store->pool->root && !set_root(store, make_node(store, 1))) return 0;
  if (!insert_below(store, store->pool->root, key, link, &split)) return 0;
  if (!split.right) return 1;
  uint64_t root = make_node(store, 0);
  if (!root) return 0;
  struct node *node = node_at(store, root);
  node->links[0] = store->pool->root;
  node->links[1] = split.right;
  node->keys[0] = split.key;
  node->count = 1;
  persist_node(node);
  return set_root(store, root);
}

// Moves the last key of the left neighbour, or the first one of the right neighbour, into a child that has too few.
static void borrow(struct store *store, struct node *parent, uint64_t child, uint64_t neighbour) {
  struct node *to = node_at(store, parent->links[child]), *from = node_at(store, parent->links[neighbour]);
  int from_left = neighbour < child;
  uint64_t between = from_left ? neighbour : child, inner = to->is_leaf ? 0 : 1;
  uint64_t place = from_left ? from->count - 1 : 0;
  uint64_t key = from->keys[place], link = from->links[from_left ? place + inner : 0];
  if (from_left) {
    open_gap(to->keys, to->count, 0);
    open_gap(to->links, to->count + inner, 0);
  } else {
    close_gap(from->keys, from->count, 0);
    close_gap(from->links, from->count + inner, 0);
  }
  from->count--;
  to->keys[from_left ? 0 : to->count] = inner ? parent->keys[between] : key;
  to->links[from_left ? 0 : to->count + inner] = link;
  to->count++;
  persist_node(to);
  persist_node(from);
  parent->keys[between] = inner || from_left ? key : from->keys[0];
  persist_node(parent);
}

// Moves all of a child into its left neighbour, and gives the child's block back.
static void join(struct store *store, struct node *parent, uint64_t left) {
  struct node *to = node_at(store, parent->links[left]), *from = node_at(store, parent->links[left + 1]);
  uint64_t gone = parent->links[left + 1], inner = to->is_leaf ? 0 : 1;
  if (inner) to->keys[to->count++] = parent->keys[left];
  memcpy(to->keys + to->count, from->keys, from->count * sizeof *to->keys);
  memcpy(to->links + to->count, from->links, (from->count + inner) * sizeof *to->links);
  to->count += from->count;
  to->next = from->next;
  persist_node(to);
  remove_key(parent, left);
  give_block(store, gone);
}

// Moves a key of a neighbour to a child with too few keys, or joins the two.
static void refill(struct store *store, struct node *parent, uint64_t child) {
  uint64_t left = child ? child - 1 : child, right = child < parent->count ? child + 1 : child;
  if (node_at(store, parent->links[left])->count > LEAST)
    borrow(store, parent, child, left);
  else if (node_at(store, parent->links[right])->count > LEAST)
    borrow(store, parent, child, right);
  else
    join(store, parent, left);
}

// Removes a key from the subtree at this place.
static void remove_below(struct store *store, uint64_t place, uint64_t key) {
  struct node *node = node_at(store, place);
  if (node->is_leaf) {
    remove_key(node, keys_below(node, key));
    return;
  }
  uint64_t child = child_for(node, key);
  remove_below(store, node->links[child], key);
  if (node_at(store, node->links[child])->count < LEAST) refill(store, node, child);
}

static void remove_from_tree(struct store *store, uint64_t key) {
  uint64_t root = store->pool->root;
  struct node *node = node_at(store, root);
  remove_below(store, root, key);
  if (node->count) return;
  set_root(store, node->is_leaf ? 0 : node->links[0]);
  give_block(store, root);
}

// Calls the visitor for each key from `first` to `last`, in ascending order, until it answers 0.
static void visit(const struct store *store, uint64_t first, uint64_t last,
                  int (*visitor)(const struct store *store, uint64_t key, const struct text *text, void *with),
                  void *with) {
  struct node *leaf = leaf_for(store, first);
  for (uint64_t place = leaf ? keys_below(leaf, first) : 0; leaf; place++) {
    if (place >= leaf->count) {
      leaf = leaf->next ? node_at(store, leaf->next) : NULL;
      place = (uint64_t)-1;
    } else if (leaf->keys[place] > last || !visitor(store, leaf->keys[place], at(store, leaf->links[place]), with)) {
      return;
    }
  }
}

// --- results in volatile memory

static int by_length(const struct store *store, uint64_t left, uint64_t right) {
  const struct text *a = at(store, *find(store, left)), *b = at(store, *find(store, right));
  return (a->length > b->length) - (a->length < b->length);
}

static int by_bytes(const struct store *store, uint64_t left, uint64_t right) {
  const struct text *a = at(store, *find(store, left)), *b = at(store, *find(store, right));
  size_t shorter = a->length < b->length ? a->length : b->length;
  int order = memcmp(a->bytes, b->bytes, shorter);
  return order ? order : by_length(store, left, right);
}

// Puts a key at its place in the order of the comparison, after equal keys.
static int collect(const struct store *store, uint64_t key, const struct text *text, void *with) {
  struct results *results = with;
  (void)text;
  if (results->count == results->room) {
    size_t room = results->room ? 2 * results->room : 4;
    uint64_t *more = realloc(results->keys, room * sizeof *more);
    if (!more) return 0;
    results->keys = more;
    results->room = room;
  }
  uint64_t place = results->count;
  while (place && results->compare(store, results->keys[place - 1], key) > 0) place--;
  open_gap(results->keys, results->count, place);
  results->keys[place] = key;
  results->count++;
  return 1;
}

static int add_up(const struct store *store, uint64_t key, const struct text *text, void *with) {
  uint64_t *sums = with;
  (void)store;
  sums[0]++;
  sums[1] += key;
  sums[2] += (uint64_t)is_whole(text);
  return 1;
}

// --- commands

// Puts a text for a key, in place of its old text.
static long long put(struct store *store) {
  uint64_t key = (uint64_t)read_i64();
  long long size = read_i64();
  char *bytes = malloc((size_t)size + 32);
  if (!bytes) return -1;
  int length = snprintf(bytes, 32, "%llu:", (unsigned long long)key);
  memset(bytes + length, 'a' + (int)(key % 26), (size_t)size);
  bytes[length + size] = 0;
  uint64_t place = write_text(store, bytes), *old = find(store, key);
  free(bytes);
  if (!place) return -1;
  if (old) {
    give_block(store, *old);
    *old = place;
    pmem_persist(old, sizeof *old);
    return 0;
  }
  if (!insert(store, key, place)) return -1;
  count_keys(store, 1);
  return 1;
}

static long long take(struct store *store) {
  uint64_t key = (uint64_t)read_i64(), *link = find(store, key);
  if (!link) return 0;
  give_block(store, *link);
  remove_from_tree(store, key);
  count_keys(store, -1);
  return 1;
}

static long long get(struct store *store) {
  uint64_t *link = find(store, (uint64_t)read_i64());
  if (!link) return -1;
  const struct text *text = at(store, *link);
  return is_whole(text) ? (long long)text->length : -2;
}

static long long sum(struct store *store) {
  uint64_t sums[3] = {0, 0, 0}, first = (uint64_t)read_i64(), last = (uint64_t)read_i64();
  visit(store, first, last, add_up, sums);
  print_i64((long long)sums[0]);
  print_i64((long long)sums[1]);
  return (long long)sums[2];
}

static long long sorted(struct store *store, int (*compare)(const struct store *, uint64_t, uint64_t)) {
  struct results results = {NULL, 0, 0, compare};
  long long limit = read_i64();
  visit(store, 0, UINT64_MAX, collect, &results);
  for (long long i = 0; i < limit && (size_t)i < results.count; i++) print_i64((long long)results.keys[i]);
  free(results.keys);
  return (long long)results.count;
}

static long long shortest(struct store *store) { return sorted(store, by_length); }

static long long first_texts(struct store *store) { return sorted(store, by_bytes); }

static long long status(struct store *store) {
  long long height = 0;
  for (uint64_t place = store->pool->root; place; height++) {
    const struct node *node = node_at(store, place);
    place = node->is_leaf ? 0 : node->links[0];
  }
  print_i64((long long)store->pool->count);
  print_i64(height);
  return (long long)store->pool->used;
}

// Goes through a sequence of keys: removes each key that the tree has, and puts each other key.
static long long many(struct store *store);

static const struct command {
  const char *name;
  long long (*run)(struct store *store);
} COMMANDS[] = {
    {"end", NULL},          {"put", put},         {"take", take},     {"get", get}, {"sum", sum},
    {"shortest", shortest}, {"first", first_texts}, {"status", status}, {"many", many},
};

static long long many(struct store *store) {
  long long count = read_i64(), step = read_i64(), changed = 0;
  for (long long i = 0; i < count; i++) {
    uint64_t key = (uint64_t)(i * step % 211), *link = find(store, key);
    if (link) {
      give_block(store, *link);
      remove_from_tree(store, key);
      count_keys(store, -1);
      changed--;
    } else {
      char bytes[24];
      snprintf(bytes, sizeof bytes, "text %llu", (unsigned long long)key * 7919 % 1000);
      uint64_t place = write_text(store, bytes);
      if (!place || !insert(store, key, place)) return -1;
      count_keys(store, 1);
      changed++;
    }
  }
  return changed;
}

static const struct command *command_of(long long number) {
  size_t count = sizeof COMMANDS / sizeof *COMMANDS;
  return number > 0 && (size_t)number < count ? &COMMANDS[number] : &COMMANDS[0];
}

static void run_commands(struct store *store) {
  for (const struct command *command; (command = command_of(read_i64()))->run;) {
    print_i64(command->run(store));
    pm_assert(store->pool, store->pool->used);
  }
}

// Maps the file; an empty one becomes a store without keys.
static int open_store(struct store *store, const char *path) {
  int is_pmem;
  store->pool = pmem_map_file(path, POOL_SIZE, CREATE, 0600, &store->mapped, &is_pmem);
  if (!store->pool) return 0;
  struct pool *pool = store->pool;
  if (pool->magic == MAGIC) return 1;
  memset(pool, 0, sizeof *pool);
  pool->used = (sizeof *pool + SMALLEST - 1) / SMALLEST * SMALLEST;
  pmem_persist(pool, sizeof *pool);
  pool->magic = MAGIC;
  pmem_persist(&pool->magic, sizeof pool->magic);
  return 1;
}

int main(void) {
  struct store store;
  if (!open_store(&store, "store.pool")) return 1;
  run_commands(&store);
  pmem_unmap(store.pool, store.mapped);
  return 0;
}

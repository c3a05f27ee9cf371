// A buddy allocator in persistent memory, with slabs. `lost by C1` stands at a store that the bug C1 leaves behind.
#include <stdint.h>
#include <string.h>
#include <stdio.h>
#include <stdlib.h>
#include <hippo.h>

#define PM __attribute__((section(".pm")))
#define MIN_SHIFT 6
#define ORDERS    8
#define ARENA     (1u << (MIN_SHIFT + ORDERS - 1))
#define NBLOCKS   (ARENA >> MIN_SHIFT)
#define NIL       0xffffffffu

struct node { uint32_t next, prev; };
struct slab { uint32_t size, free_mask, base, next; };

static PM struct {
	uint64_t magic;
	uint32_t head[ORDERS]; // the free list of each order
	uint8_t order[NBLOCKS]; // 0x80 | order: the head of an allocated block; order + 1: of a free one; 0: inside
	struct slab slabs[16];
	uint32_t nslabs;
} meta;
static PM _Alignas(64) unsigned char arena[ARENA];

static struct node *at(uint32_t i) { return (struct node *)(arena + ((size_t)i << MIN_SHIFT)); }

static void push(int o, uint32_t i)
{
	struct node *n = at(i);

	n->next = meta.head[o];
	n->prev = NIL;
	pmem_flush(n, sizeof *n);
	if (n->next != NIL) {
		at(n->next)->prev = i; // lost by C1: the neighbour is not flushed
	}
	meta.head[o] = i;
	meta.order[i] = (uint8_t)(o + 1);
	pmem_persist(&meta.head[o], sizeof meta.head[o]);
	pmem_persist(&meta.order[i], 1);
}

static void unlink_(int o, uint32_t i)
{
	struct node *n = at(i);

	if (n->prev == NIL)
		meta.head[o] = n->next; // lost by C2: not flushed
	else {
		at(n->prev)->next = n->next;
		pmem_persist(&at(n->prev)->next, 4);
	}
	if (n->next != NIL) {
		at(n->next)->prev = n->prev;
		pmem_persist(&at(n->next)->prev, 4);
	}
	meta.order[i] = 0; // lost by C3: no fence
	pmem_flush(&meta.order[i], 1);
}

static void init(void)
{
	if (meta.magic == 0xb0dd1e)
		return;
	for (int o = 0; o < ORDERS; o++)
		meta.head[o] = NIL;
	memset(meta.order, 0, sizeof meta.order);
	pmem_persist(&meta, sizeof meta);
	push(ORDERS - 1, 0);
	meta.magic = 0xb0dd1e;
	pmem_persist(&meta.magic, sizeof meta.magic);
}

static uint32_t balloc(int o)
{
	int k = o;
	uint32_t i;

	while (k < ORDERS && meta.head[k] == NIL)
		k++;
	if (k == ORDERS)
		return NIL;
	i = meta.head[k];
	unlink_(k, i);
	while (k > o) {
		k--;
		push(k, i + (1u << k));
	}
	meta.order[i] = (uint8_t)(0x80 | o);
	pmem_persist(&meta.order[i], 1);
	return i;
}

static void bfree(uint32_t i)
{
	int o = meta.order[i] & 0x7f;

	while (o < ORDERS - 1) {
		uint32_t b = i ^ (1u << o);

		if (meta.order[b] != o + 1)
			break;
		unlink_(o, b);
		meta.order[i] = 0;
		if (b < i)
			i = b;
		o++;
	}
	push(o, i);
}

static void *salloc(uint32_t size)
{
	struct slab *s;

	for (uint32_t k = 0; k < meta.nslabs; k++) {
		s = &meta.slabs[k];
		if (s->size == size && s->free_mask) {
			int b = __builtin_ctz(s->free_mask);

			s->free_mask &= ~(1u << b);
			pmem_persist(&s->free_mask, 4);
			return arena + s->base + (size_t)b * size;
		}
	}
	if (meta.nslabs == 16)
		return NULL;
	s = &meta.slabs[meta.nslabs];
	s->size = size;
	s->base = balloc(3) << MIN_SHIFT;
	s->free_mask = (1u << (512 / size)) - 1;
	pmem_flush(s, sizeof *s);
	meta.nslabs++;
	pmem_persist(&meta.nslabs, sizeof meta.nslabs);
	return salloc(size);
}

static void sfree(void *p, uint32_t size)
{
	uint32_t off = (uint32_t)((unsigned char *)p - arena);

	for (uint32_t k = 0; k < meta.nslabs; k++) {
		struct slab *s = &meta.slabs[k];

		if (off - s->base < 512 && s->size == size) {
			s->free_mask |= 1u << ((off - s->base) / size); // lost by C4: no fence
			pmem_flush(&s->free_mask, 4);
			return;
		}
	}
	abort();
}

// The recovery: each block is free or allocated once, and the free lists agree with order[].
static void check_heap(void)
{
	static unsigned char seen[NBLOCKS];
	uint32_t total = 0;

	memset(seen, 0, sizeof seen);
	for (int o = 0; o < ORDERS; o++)
		for (uint32_t i = meta.head[o], p = NIL; i != NIL; p = i, i = at(i)->next) {
			if (i >= NBLOCKS || seen[i]++)
				abort();
			if (meta.order[i] != o + 1 || at(i)->prev != p)
				abort();
			total += 1u << o;
		}
	for (uint32_t i = 0; i < NBLOCKS; i++)
		if (meta.order[i] & 0x80)
			total += 1u << (meta.order[i] & 0x7f);
	if (total != NBLOCKS)
		abort();
}

int main(void)
{
	uint32_t a[12];
	char *s[10];

	init();
	check_heap();
	for (int i = 0; i < 12; i++) {
		a[i] = balloc(i % 4);
		if (a[i] == NIL)
			return 1;
	}
	for (int i = 0; i < 12; i += 2)
		bfree(a[i]);
	for (int i = 0; i < 10; i++) {
		s[i] = salloc(i % 2 ? 32 : 64);
		snprintf(s[i], 16, "object %d", i);
		pmem_persist(s[i], 16);
	}
	for (int i = 0; i < 10; i += 3)
		sfree(s[i], i % 2 ? 32 : 64);
	check_heap();
	printf("%s ok\n", s[1]);
	return 0;
}

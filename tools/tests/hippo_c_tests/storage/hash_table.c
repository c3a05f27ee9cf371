// A hash table with two tables, of which one is live, and a resize. `lost by A1` stands at a store that the bug A1 leaves behind.
#include "hash_table.h"
#include <string.h>
#include <stdlib.h>
#include <assert.h>
#include <stdio.h>
#include <hippo.h>

#define PH_MAGIC 0x5048415348303031ull

PERSISTENT struct ph_pool pool;

static void persist(const void *p, size_t n) { pmem_persist(p, n); }

static uint64_t hash(uint64_t k)
{
	k ^= k >> 33;
	k *= 0xff51afd7ed558ccdull;
	k ^= k >> 33;
	k *= 0xc4ceb9fe1a85ec53ull;
	k ^= k >> 33;
	return k;
}

static uint32_t checksum(uint64_t k, uint64_t v)
{
	return (uint32_t)(hash(k) ^ (hash(v) >> 32));
}

static struct ph_table *live(void) { return &pool.t[pool.active]; }

static struct ph_entry *find(struct ph_table *t, uint64_t key)
{
	uint64_t i, h = hash(key) & (t->cap - 1);

	for (i = 0; i < t->cap; i++) {
		struct ph_entry *e = &t->e[(h + i) & (t->cap - 1)];

		if (e->state == PH_EMPTY)
			return NULL;
		if (e->state == PH_USED && e->key == key)
			return e;
	}
	return NULL;
}

static struct ph_entry *slot(struct ph_table *t, uint64_t key)
{
	uint64_t i, h = hash(key) & (t->cap - 1);

	for (i = 0; i < t->cap; i++) {
		struct ph_entry *e = &t->e[(h + i) & (t->cap - 1)];

		if (e->state != PH_USED)
			return e;
	}
	return NULL;
}

static void fill(struct ph_entry *e, uint64_t key, uint64_t val)
{
	e->key = key; // lost by A1
	e->val = val; // lost by A1
	e->sum = checksum(key, val);
	persist(e, sizeof e); // bug A1: the size of the pointer
	pm_assert(e, sizeof *e);
	e->state = PH_USED;
	persist(&e->state, sizeof e->state);
}

static void resize(void)
{
	struct ph_table *old = live(), *new = &pool.t[1 - pool.active];
	uint64_t i, cap = old->cap * 2;

	if (cap > PH_MAX_CAP)
		abort();
	pool.resizing = 1;
	persist(&pool.resizing, sizeof pool.resizing);
	memset(new->e, 0, cap * sizeof new->e[0]); // lost by A2: never flushed
	new->cap = cap;
	new->used = 0;
	persist(new, 16);
	for (i = 0; i < old->cap; i++) {
		struct ph_entry *e = &old->e[i], *f;

		if (e->state != PH_USED)
			continue;
		f = slot(new, e->key);
		*f = *e; // lost by A4: no fence before the switch of the tables
		pmem_flush(f, sizeof *f);
		new->used++; // lost by A3: not flushed after the loop
	}
	pool.active = 1 - pool.active;
	pool.resizing = 0; // in the line of `active`
	persist(&pool.active, 8);
}

bool ph_put(uint64_t key, uint64_t val)
{
	struct ph_table *t = live();
	struct ph_entry *e = find(t, key);

	pool.stat_puts++; // hippo: volatile, statistics may be lost
	if (e) {
		e->val = val;
		e->sum = checksum(key, val); // lost by A5: flushed only where it lies in the line of `val`
		persist(&e->val, sizeof e->val);
		return false;
	}
	if ((t->used + 1) * 4 > t->cap * 3) {
		resize();
		t = live();
	}
	fill(slot(t, key), key, val);
	t->used++;
	persist(&t->used, sizeof t->used);
	return true;
}

bool ph_get(uint64_t key, uint64_t *val)
{
	struct ph_entry *e = find(live(), key);

	if (!e)
		return false;
	*val = e->val;
	return true;
}

bool ph_del(uint64_t key)
{
	struct ph_table *t = live();
	struct ph_entry *e = find(t, key);

	if (!e)
		return false;
	e->state = PH_DEAD; // lost by A6: no fence
	pmem_flush(&e->state, sizeof e->state);
	t->used--; // lost by A6
	pmem_flush(&t->used, sizeof t->used);
	return true;
}

uint64_t ph_count(void) { return live()->used; }

void ph_verify(void)
{
	struct ph_table *t = live();
	uint64_t i, n = 0;

	if (t->cap == 0 || (t->cap & (t->cap - 1)) || t->cap > PH_MAX_CAP)
		abort();
	for (i = 0; i < t->cap; i++)
		if (t->e[i].state == PH_USED) {
			if (t->e[i].sum != checksum(t->e[i].key, t->e[i].val))
				abort();
			n++;
		}
	if (n != t->used)
		abort(); // bug A7: the recovery should count again
}

void ph_open(void)
{
	if (pool.magic != PH_MAGIC) {
		pool.t[0].cap = 8;
		pool.t[0].used = 0;
		pool.active = 0;
		persist(&pool.t[0], 16);
		pool.magic = PH_MAGIC;
		persist(&pool, sizeof pool.magic);
		return;
	}
	if (pool.resizing) { // the half-made table is thrown away
		pool.resizing = 0;
		persist(&pool.resizing, sizeof pool.resizing);
	}
	ph_verify();
}

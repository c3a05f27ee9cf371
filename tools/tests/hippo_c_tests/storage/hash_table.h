#ifndef HASH_TABLE_H
#define HASH_TABLE_H
#include <stdint.h>
#include <stdbool.h>
#define PH_MAX_CAP 256
enum { PH_EMPTY = 0, PH_USED = 1, PH_DEAD = 2 };
struct ph_entry {
	uint32_t state;
	uint32_t sum;
	uint64_t key;
	uint64_t val;
}; // 24 bytes: some cross a cache line
struct ph_table {
	uint64_t cap;
	uint64_t used;
	struct ph_entry e[PH_MAX_CAP];
};
struct ph_pool {
	uint64_t magic;
	uint32_t active; // which of the two tables is live
	uint32_t resizing; // a resize is in progress
	uint64_t stat_puts;
	struct ph_table t[2];
};
void ph_open(void);
bool ph_put(uint64_t key, uint64_t val);
bool ph_get(uint64_t key, uint64_t *val);
bool ph_del(uint64_t key);
uint64_t ph_count(void);
void ph_verify(void);
#endif

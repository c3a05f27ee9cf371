// A log before a store of pages: update, commit, checkpoint, truncation, with checksums and recovery. It prints each update that is committed.
// `lost by B1` stands at a store that the bug B1 leaves behind.
#include <stdint.h>
#include <stddef.h>
#include <string.h>
#include <stdlib.h>
#include <assert.h>
#include <hippo.h>

#define PAGES      8
#define PAGE       128
#define LOG_BYTES  4096
#define COMMIT_TAG 0xC0FFEEu

struct rec_head {
	uint32_t tag; // the number of a page, or COMMIT_TAG
	uint32_t len;
	uint64_t lsn;
	uint32_t crc;
	uint32_t pad;
};

struct wal {
	uint64_t head; // the first byte that the recovery reads
	uint64_t tail; // the first free byte; the recovery finds it again
	uint64_t next_lsn;
	_Alignas(64) unsigned char buf[LOG_BYTES];
};

PERSISTENT _Alignas(64) struct wal wal;
PERSISTENT _Alignas(64) unsigned char page[PAGES][PAGE];

static uint32_t crc_table[256];
static unsigned char shadow[PAGES][PAGE];

static void crc_init(void)
{
	for (uint32_t i = 0; i < 256; i++) {
		uint32_t c = i;
		for (int k = 0; k < 8; k++)
			c = c & 1 ? 0xEDB88320u ^ (c >> 1) : c >> 1;
		crc_table[i] = c;
	}
}

static uint32_t crc32_of(const void *p, size_t n, uint32_t c)
{
	const unsigned char *b = p;
	c = ~c;
	while (n--)
		c = crc_table[(c ^ *b++) & 255] ^ (c >> 8);
	return ~c;
}

static inline void flush(const void *p, size_t n)
{
	const char *a = (const char *)((uintptr_t)p & ~(uintptr_t)63), *e = (const char *)p + n;
	for (; a < e; a += 64)
		_mm_clwb((void *)a);
}
#define FENCE() _mm_sfence()
#define PERSIST(p, n) do { flush(p, n); FENCE(); } while (0)

static size_t append(uint32_t tag, const void *data, uint32_t len)
{
	struct rec_head h = { .tag = tag, .len = len, .lsn = wal.next_lsn };
	size_t at = wal.tail, need = sizeof h + ((len + 7) & ~7u);

	if (at + need > LOG_BYTES)
		return 0;
	h.crc = crc32_of(&h, offsetof(struct rec_head, crc), 0);
	h.crc = crc32_of(data, len, h.crc);
	memcpy(wal.buf + at, &h, sizeof h); // lost by B7: an update that does not fit returns without a fence
	memcpy(wal.buf + at + sizeof h, data, len); // lost by B1
	flush(wal.buf + at, sizeof h); // bug B1: what follows the head is not flushed
	wal.next_lsn++; // lost by B2: no fence, and flushed only with the tail
	wal.tail = at + need; // lost by B3
	return need;
}

static void commit(void)
{
	append(COMMIT_TAG, "", 0);
	FENCE();
	flush(&wal.tail, sizeof wal.tail); // bug B3: no fence after it
}

static void checkpoint(void)
{
	for (int p = 0; p < PAGES; p++)
		if (memcmp(page[p], shadow[p], PAGE)) {
			memcpy(page[p], shadow[p], PAGE); // lost by B4
			flush(page[p], PAGE / 2); // bug B4: half of the page
		}
	FENCE();
	wal.head = wal.tail;
	PERSIST(&wal.head, 8);
}

static void truncate_log(void)
{
	memset(wal.buf, 0, LOG_BYTES); // lost by B6: not flushed
	wal.head = wal.tail = 0;
	PERSIST(&wal, sizeof wal.head); // with the tail, which lies in the same line
}

static int apply_one(size_t *at, int redo, uint64_t *lsn)
{
	struct rec_head h;
	uint32_t c;

	if (*at + sizeof h > LOG_BYTES)
		return -1;
	memcpy(&h, wal.buf + *at, sizeof h);
	if (h.tag != COMMIT_TAG && (h.tag >= PAGES || h.len != PAGE))
		return -1;
	if (*at + sizeof h + h.len > LOG_BYTES)
		return -1;
	c = crc32_of(&h, offsetof(struct rec_head, crc), 0);
	c = crc32_of(wal.buf + *at + sizeof h, h.len, c);
	if (c != h.crc)
		return -1;
	if (*lsn && h.lsn <= *lsn)
		return -1;
	*lsn = h.lsn;
	if (redo && h.tag != COMMIT_TAG)
		memcpy(shadow[h.tag], wal.buf + *at + sizeof h, PAGE);
	*at += sizeof h + ((h.len + 7) & ~7u);
	return h.tag == COMMIT_TAG;
}

// Pages 2k and 2k+1 always have equal first words.
static void invariant(void)
{
	for (int p = 0; p < PAGES; p += 2)
		assert(!memcmp(shadow[p], shadow[p + 1], 8));
}

static void recover(void)
{
	size_t at = wal.head, end = wal.head;
	uint64_t lsn = 0;
	int r;

	memcpy(shadow, page, sizeof shadow);
	assert(wal.head <= LOG_BYTES);
	while ((r = apply_one(&at, 0, &lsn)) >= 0)
		if (r == 1)
			end = at;
	lsn = 0;
	for (at = wal.head; at < end;)
		apply_one(&at, 1, &lsn);
	wal.tail = end;
	if (lsn >= wal.next_lsn)
		wal.next_lsn = lsn + 1;
	PERSIST(&wal, 24);
	invariant();
}

// What was printed before the power cut was committed, so its pages have it.
static void acknowledged(void)
{
	long long printed = hippo_prints();

	if (printed) {
		uint64_t word;

		memcpy(&word, shadow[2 * ((printed - 1) % 4)], 8);
		if (word < (uint64_t)(999 + printed))
			__builtin_trap();
	}
}

static int update_pair(int k, uint64_t v)
{
	for (int i = 0; i < 2; i++) {
		int p = 2 * k + i;
		memcpy(shadow[p], &v, 8);
		memset(shadow[p] + 8, (int)(v & 255), PAGE - 8);
		if (!append(p, shadow[p], PAGE))
			return -1;
	}
	commit();
	return 0;
}

int main(void)
{
	crc_init();
	if (wal.next_lsn == 0) {
		wal.next_lsn = 1;
		PERSIST(&wal, 24);
	}
	recover();
	acknowledged();
	long long n = read_i64();
	for (long long i = 0; i < n; i++) {
		if (update_pair((int)(i % 4), 1000 + i)) {
			checkpoint();
			truncate_log();
			i--;
			continue;
		}
		print_i64(i);
		if (i % 5 == 4)
			checkpoint();
	}
	return 0;
}

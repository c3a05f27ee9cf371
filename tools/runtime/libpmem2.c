// libpmem2's calls over the pools. A source is an open file, a map is a part of a pool, or, where its sharing is private, a copy of it on
// the heap. The region is flushed by cache lines, so that is the granularity of stores.
#include "descriptor.h"
#include "hippo.h"
#include <errno.h>
#include <stdint.h>
#include <stdlib.h>
#include <string.h>

// By their values in <libpmem2.h>.
enum granularity { GRANULARITY_BYTE, GRANULARITY_CACHE_LINE, GRANULARITY_PAGE };
enum sharing { SHARED, PRIVATE };
enum { NO_DRAIN = 1, NO_FLUSH = 32 };
static const unsigned CAN_EXECUTE = 1u << 29, CAN_READ = 1u << 30, CAN_WRITE = 1u << 31;
enum {
  E_INVALID_FILE_HANDLE = -100004, E_MAP_RANGE = -100006, E_GRANULARITY_NOT_SET = -100008,
  E_GRANULARITY_NOT_SUPPORTED = -100009, E_OFFSET_OUT_OF_RANGE = -100010, E_OFFSET_UNALIGNED = -100011, E_LENGTH_UNALIGNED = -100015,
  E_SOURCE_EMPTY = -100018, E_INVALID_SHARING_VALUE = -100019, E_DEEP_FLUSH_RANGE = -100024, E_INVALID_PROT_FLAG = -100031,
  E_NO_ACCESS = -100032
};

struct pmem2_config {
  int is_used, granularity; // the granularity is -1 while it is not set
  enum sharing sharing;
  unsigned protection;
  size_t offset, length;
};

struct pmem2_map {
  unsigned char *address;
  size_t size;
  int is_private;
};

enum { CONFIGS = 16, MAPS = 16, ALIGNMENT = 4096 };

static struct pmem2_config configs[CONFIGS];
static struct pmem2_map maps[MAPS];

int pmem2_config_new(struct pmem2_config **to) {
  for (struct pmem2_config *config = configs; config < configs + CONFIGS; config++)
    if (!config->is_used) {
      *config = (struct pmem2_config){.is_used = 1, .granularity = -1, .protection = CAN_READ | CAN_WRITE};
      *to = config;
      return 0;
    }
  return -ENOMEM;
}

int pmem2_config_delete(struct pmem2_config **from) {
  if (*from) (*from)->is_used = 0;
  *from = NULL;
  return 0;
}

int pmem2_config_set_required_store_granularity(struct pmem2_config *to, enum granularity granularity) {
  if ((unsigned)granularity > GRANULARITY_PAGE) return E_GRANULARITY_NOT_SUPPORTED;
  to->granularity = granularity;
  return 0;
}

int pmem2_config_set_offset(struct pmem2_config *to, size_t offset) {
  if (offset > INT64_MAX) return E_OFFSET_OUT_OF_RANGE;
  to->offset = offset;
  return 0;
}

int pmem2_config_set_length(struct pmem2_config *to, size_t length) {
  to->length = length;
  return 0;
}

int pmem2_config_set_sharing(struct pmem2_config *to, enum sharing sharing) {
  if (sharing != SHARED && sharing != PRIVATE) return E_INVALID_SHARING_VALUE;
  to->sharing = sharing;
  return 0;
}

int pmem2_config_set_protection(struct pmem2_config *to, unsigned protection) {
  if (protection & ~(CAN_EXECUTE | CAN_READ | CAN_WRITE)) return E_INVALID_PROT_FLAG;
  to->protection = protection;
  return 0;
}

int pmem2_source_from_fd(struct hippo_open_file **to, int descriptor) {
  struct hippo_open_file *file = hippo_open_file(descriptor);
  if (!file || !hippo_may_read(file)) return E_INVALID_FILE_HANDLE;
  *to = file;
  return 0;
}

int pmem2_source_delete(struct hippo_open_file **from) {
  *from = NULL;
  return 0;
}

int pmem2_source_size(const struct hippo_open_file *source, size_t *to) {
  *to = source->pool->file->length;
  return 0;
}

int pmem2_source_alignment(const struct hippo_open_file *source, size_t *to) {
  (void)source;
  *to = ALIGNMENT;
  return 0;
}

// What is wrong with a mapping of a file, or 0.
static int map_error(const struct pmem2_config *with, const struct hippo_open_file *source) {
  size_t file_length = source->pool->file->length;
  if (with->granularity < 0) return E_GRANULARITY_NOT_SET;
  if (file_length == 0) return E_SOURCE_EMPTY;
  if (with->offset % ALIGNMENT) return E_OFFSET_UNALIGNED;
  if (with->offset > file_length || with->length > file_length - with->offset) return E_MAP_RANGE;
  if (with->length % ALIGNMENT) return E_LENGTH_UNALIGNED;
  if (with->sharing == SHARED && with->protection & CAN_WRITE && !hippo_may_write(source)) return E_NO_ACCESS;
  return with->granularity == GRANULARITY_BYTE ? E_GRANULARITY_NOT_SUPPORTED : 0;
}

// The memory of a mapping: the pool's bytes, or a copy of them.
static unsigned char *memory_of(const struct pmem2_config *with, unsigned char *bytes, size_t length) {
  if (with->sharing == SHARED) return bytes;
  unsigned char *copy = aligned_alloc(ALIGNMENT, length);
  return copy ? memcpy(copy, bytes, length) : NULL;
}

int pmem2_map_new(struct pmem2_map **to, const struct pmem2_config *with, const struct hippo_open_file *source) {
  *to = NULL;
  int error = map_error(with, source);
  if (error) return error;
  size_t length = with->length ? with->length : source->pool->file->length - with->offset;
  struct pmem2_map *map = maps;
  while (map < maps + MAPS && map->address) map++;
  if (map == maps + MAPS) return -ENOMEM;
  unsigned char *address = memory_of(with, source->pool->bytes + with->offset, length);
  if (!address) return -ENOMEM;
  *map = (struct pmem2_map){address, length, with->sharing == PRIVATE};
  *to = map;
  return 0;
}

int pmem2_map_delete(struct pmem2_map **from) {
  if ((*from)->is_private) free((*from)->address);
  (*from)->address = NULL;
  *from = NULL;
  return 0;
}

void *pmem2_map_get_address(const struct pmem2_map *map) { return map->address; }

size_t pmem2_map_get_size(const struct pmem2_map *map) { return map->size; }

enum granularity pmem2_map_get_store_granularity(const struct pmem2_map *map) {
  (void)map;
  return GRANULARITY_CACHE_LINE;
}

// The functions that a map returns. Memory outside of pools is volatile, and a flush of it does nothing.
static void flush(const void *address, size_t length) {
  if (hippo_pool_with(address)) pmem_flush(address, length);
}

static void drain(void) { pmem_drain(); }

int pmem2_deep_flush(const struct pmem2_map *map, void *address, size_t length) {
  size_t offset = (unsigned char *)address - map->address;
  if (offset > map->size || length > map->size - offset) return E_DEEP_FLUSH_RANGE;
  if (!length) return 0;
  flush(address, length);
  drain();
  return 0;
}

static void persist(const void *address, size_t length) {
  flush(address, length);
  drain();
}

static void *finish(void *to, size_t length, unsigned flags) {
  if (flags & NO_FLUSH) return to;
  flush(to, length);
  if (!(flags & NO_DRAIN)) drain();
  return to;
}

static void *move(void *to, const void *from, size_t length, unsigned flags) {
  return finish(memmove(to, from, length), length, flags);
}

static void *copy(void *to, const void *from, size_t length, unsigned flags) {
  return finish(memcpy(to, from, length), length, flags);
}

static void *fill(void *to, int byte, size_t length, unsigned flags) {
  return finish(memset(to, byte, length), length, flags);
}

typedef void (*persist_function)(const void *, size_t);
typedef void (*drain_function)(void);
typedef void *(*copy_function)(void *, const void *, size_t, unsigned);
typedef void *(*fill_function)(void *, int, size_t, unsigned);

persist_function pmem2_get_persist_fn(struct pmem2_map *map) { return (void)map, persist; }
persist_function pmem2_get_flush_fn(struct pmem2_map *map) { return (void)map, flush; }
drain_function pmem2_get_drain_fn(struct pmem2_map *map) { return (void)map, drain; }
copy_function pmem2_get_memmove_fn(struct pmem2_map *map) { return (void)map, move; }
copy_function pmem2_get_memcpy_fn(struct pmem2_map *map) { return (void)map, copy; }
fill_function pmem2_get_memset_fn(struct pmem2_map *map) { return (void)map, fill; }

void pmem2_perror(const char *format, ...) { (void)format; }

const char *pmem2_errormsg(void) { return strerror(errno); }

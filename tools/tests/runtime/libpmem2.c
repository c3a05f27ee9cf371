// The calls of libpmem2 over a pool; what is expected stands in libpmem2.out.
#include "check.h"
#include <fcntl.h>
#include <unistd.h>

struct pmem2_config;
struct pmem2_source;
struct pmem2_map;
int pmem2_config_new(struct pmem2_config **to);
int pmem2_config_delete(struct pmem2_config **from);
int pmem2_config_set_required_store_granularity(struct pmem2_config *to, int granularity);
int pmem2_config_set_offset(struct pmem2_config *to, size_t offset);
int pmem2_config_set_length(struct pmem2_config *to, size_t length);
int pmem2_config_set_sharing(struct pmem2_config *to, int sharing);
int pmem2_config_set_protection(struct pmem2_config *to, unsigned protection);
int pmem2_deep_flush(struct pmem2_map *map, void *address, size_t length);
int pmem2_source_from_fd(struct pmem2_source **to, int descriptor);
int pmem2_source_delete(struct pmem2_source **from);
int pmem2_source_size(const struct pmem2_source *source, size_t *to);
int pmem2_source_alignment(const struct pmem2_source *source, size_t *to);
int pmem2_map_new(struct pmem2_map **to, const struct pmem2_config *with, const struct pmem2_source *source);
int pmem2_map_delete(struct pmem2_map **from);
void *pmem2_map_get_address(const struct pmem2_map *map);
size_t pmem2_map_get_size(const struct pmem2_map *map);
int pmem2_map_get_store_granularity(const struct pmem2_map *map);
void (*pmem2_get_persist_fn(struct pmem2_map *map))(const void *, size_t);
void (*pmem2_get_flush_fn(struct pmem2_map *map))(const void *, size_t);
void (*pmem2_get_drain_fn(struct pmem2_map *map))(void);
void *(*pmem2_get_memmove_fn(struct pmem2_map *map))(void *, const void *, size_t, unsigned);
void *(*pmem2_get_memcpy_fn(struct pmem2_map *map))(void *, const void *, size_t, unsigned);
void *(*pmem2_get_memset_fn(struct pmem2_map *map))(void *, int, size_t, unsigned);

enum { BYTE, CACHE_LINE, PAGE };
enum { NO_DRAIN = 1, NO_FLUSH = 32 };

static struct pmem2_config *config;
static struct pmem2_source *source;

static void sources(void) {
  size_t size = 0;
  print_i64(pmem2_source_from_fd(&source, 99) < 0);
  int file = open("data.pool", O_RDWR);
  print_i64(pmem2_source_from_fd(&source, file));
  print_i64(pmem2_source_size(source, &size));
  print_i64((long long)size);
  print_i64(pmem2_source_alignment(source, &size));
  print_i64((long long)size);
  print_i64(pmem2_config_new(&config));
}

static void refusals(void) {
  struct pmem2_map *map;
  print_i64(pmem2_map_new(&map, config, source)); // no granularity
  pmem2_config_set_required_store_granularity(config, BYTE);
  print_i64(pmem2_map_new(&map, config, source)); // more than flushes give
  pmem2_config_set_required_store_granularity(config, PAGE);
  pmem2_config_set_offset(config, 4096);
  pmem2_config_set_length(config, 1 << 16);
  print_i64(pmem2_map_new(&map, config, source)); // past the file's end
  print_i64(map == NULL);
  pmem2_config_set_length(config, 100);
  print_i64(pmem2_map_new(&map, config, source)); // no whole pages
  pmem2_config_set_length(config, 8192);
  pmem2_config_set_offset(config, 100);
  print_i64(pmem2_map_new(&map, config, source));
  pmem2_config_set_offset(config, 4096);
  print_i64(pmem2_config_set_sharing(config, 2));
  print_i64(pmem2_config_set_protection(config, 1));
  print_i64(pmem2_config_set_offset(config, (size_t)1 << 63));
}

// A private map is a copy: its stores are not in the file. Another configuration, and another access mode, change nothing of this one.
static void private_map(void) {
  struct pmem2_config *other;
  struct pmem2_source *reader;
  struct pmem2_map *map, *shared;
  int file = open("data.pool", O_RDONLY);
  print_i64(pmem2_source_from_fd(&reader, open("data.pool", O_WRONLY)));
  print_i64(pmem2_source_from_fd(&reader, file));
  pmem2_config_new(&other);
  pmem2_config_set_required_store_granularity(other, PAGE);
  print_i64(pmem2_map_new(&shared, other, reader)); // no access
  pmem2_config_set_protection(other, 1u << 30);
  print_i64(pmem2_map_new(&shared, other, reader));
  pmem2_config_set_protection(other, 3u << 30);
  pmem2_config_set_sharing(other, 1);
  print_i64(pmem2_map_new(&map, other, reader));
  char *own = pmem2_map_get_address(map), *common = pmem2_map_get_address(shared);
  own[4096] = 'p';
  pmem2_get_persist_fn(map)(own, 8192);
  print_i64(own[4096] == common[4096]);
  print_i64(pmem2_deep_flush(map, own, 1 << 20));
  print_i64(pmem2_deep_flush(map, own, 64));
  print_i64(pmem2_map_delete(&map) || pmem2_map_delete(&shared) || pmem2_config_delete(&other));
}

static void stores(struct pmem2_map *map, char *bytes) {
  int local = 1;
  bytes[0] = 'a';
  pmem2_get_persist_fn(map)(bytes, 1);
  pm_assert(bytes, 64);
  bytes[100] = 'b';
  pmem2_get_flush_fn(map)(bytes + 100, 1);
  pmem2_get_drain_fn(map)();
  pm_assert(bytes, 128);
  pmem2_get_persist_fn(map)(&local, 4096); // in no pool
  pmem2_get_memcpy_fn(map)(bytes + 200, "copied", 6, 0);
  pm_assert(bytes, 256);
  pmem2_get_memmove_fn(map)(bytes + 203, bytes + 200, 6, NO_DRAIN);
  pmem2_get_memset_fn(map)(bytes + 300, 'c', 40, NO_FLUSH);
  pmem2_get_persist_fn(map)(bytes + 300, 40);
  pm_assert(bytes, 8192);
  note_bytes(bytes, 8192);
  print_sum();
}

int main(void) {
  sources();
  refusals();
  struct pmem2_map *map, *other;
  print_i64(pmem2_map_new(&map, config, source));
  print_i64((long long)pmem2_map_get_size(map));
  print_i64(pmem2_map_get_store_granularity(map));
  stores(map, pmem2_map_get_address(map));
  private_map();
  print_i64(pmem2_map_new(&other, config, source));
  print_i64(pmem2_map_delete(&map) || pmem2_map_delete(&other));
  print_i64(map == NULL);
  print_i64(pmem2_source_delete(&source) || pmem2_config_delete(&config));
  return 0;
}

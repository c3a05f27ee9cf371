// Packed structs with fields anywhere, unaligned accesses, blocks with large alignments.
#include <hippo.h>
#include <stdint.h>
#include <string.h>

struct __attribute__((packed)) record { uint8_t kind; uint32_t length; uint64_t key; uint16_t sum; const char *name; };
struct __attribute__((packed)) inner { uint8_t a; int16_t b; };
struct outer { uint8_t tag; struct inner list[3]; uint32_t end; struct record record; };
struct __attribute__((packed, aligned(4))) cut { uint16_t a; uint64_t b; };

PERSISTENT struct record saved = {7, 1000000, 0x1122334455667788, 65535, 0};
static struct outer outer = {1, {{2, -3}, {4, -5}, {6, -7}}, 8, {9, 10, 11, 12, 0}};
static struct record table[3] = {{1, 2, 3, 4, 0}, {5, 6, 7, 8, 0}};
static const struct cut cut = {3, 0x123456789};
static struct __attribute__((packed)) { char a; long long numbers[3]; } odd = {1, {2, -3, 4}};

static long long sum(const struct record *of, int count) {
  long long found = 0;
  for (int i = 0; i < count; i++) found = found * 31 + of[i].kind + of[i].length + (long long)of[i].key + of[i].sum;
  return found;
}

static struct record grown(struct record r, int by) { r.length += by; r.key *= 3; r.name = "x"; return r; }

int main(void) {
  int n = (int)read_i64() + 1;
  saved.length += n; saved.key ^= saved.length;
  pmem_persist(&saved, sizeof saved);
  print_i64(sum(&saved, 1));
  outer.list[n].b *= 100; outer.record.key = (uint64_t)outer.list[2].b;
  table[n + 1] = outer.record; table[n] = grown(table[n], 40);
  print_i64(sum(table, 3) + outer.list[n].b + outer.end);
  print_i64(*table[n].name);
  print_i64((long long)(cut.a + cut.b));
  odd.numbers[n] += odd.numbers[n - 1]; print_i64(odd.numbers[1] * 10 + odd.a);
  struct record copy; memcpy(&copy, (char *)&outer.record, sizeof copy); print_i64((long long)copy.key);
  unsigned char bytes[32]; memset(bytes, 0, sizeof bytes);
  uint64_t word = 0x0102030405060708; memcpy(bytes + n * 3, &word, 8); memcpy(&word, bytes + n, 8); print_i64((long long)word);
  _Alignas(64) char line[64]; _Alignas(256) long long page[4] = {1, 2, 3, 4};
  line[n] = (char)n; print_i64(((uintptr_t)line & 63) + ((uintptr_t)page & 255) * 64 + line[n] + page[n]);
  print_i64(sizeof(struct outer) * 100 + sizeof(struct record));
  return 0;
}

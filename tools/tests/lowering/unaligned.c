// Accesses below the alignment of their types, through pointers that C does not allow and x86-64 does.
// options: --unaligned
#include <hippo.h>
#include <stdint.h>
#include <string.h>

struct __attribute__((packed)) entry { uint8_t kind; uint32_t length; uint64_t key; };
struct words { uint64_t a, b; };
PERSISTENT static struct entry entries[3] = {{1, 2, 3}, {4, 5, 6}, {7, 8, 9}};
static unsigned char bytes[64];

static void grow(uint32_t *length, uint64_t *key) { *length += 1000; *key *= *length; }

int main(void) {
  for (int i = 0; i < 3; i++) {
    grow((uint32_t *)((char *)&entries[i] + 1), (uint64_t *)((char *)&entries[i] + 5));
    pmem_persist(&entries[i], sizeof entries[i]);
    print_i64((long long)entries[i].key);
  }
  struct words *at = (struct words *)(bytes + 5 + read_i64()), copy = {1, 2};
  *at = copy;
  at->b += 7;
  copy = *(struct words *)(bytes + 4);
  print_i64((long long)copy.a);
  print_i64((long long)at->b);
  return 0;
}

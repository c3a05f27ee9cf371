// pmem_unmap, for programs that print nothing: it prints what is mapped first.
#include <hippo.h>

#undef pmem_unmap
int pmem_unmap(void *address, size_t length);

int shown_unmap(void *address, size_t length) {
  long long sum = 0;
  for (size_t i = 0; i < length; i++) sum = (sum * 31 + ((unsigned char *)address)[i]) % 1000000007;
  print_i64((long long)length);
  print_i64(sum);
  return pmem_unmap(address, length);
}

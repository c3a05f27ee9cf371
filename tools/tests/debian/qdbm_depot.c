// QDBM's depot: a hash database in a file.
#include <depot.h>
#include <hippo.h>
#include <stdio.h>
#include <string.h>
int main(void) {
  DEPOT *depot = dpopen("data.depot", DP_OWRITER | DP_OCREAT | DP_OTRUNC, 64);
  if (!depot) return 3;
  char key[16];
  for (int i = 0; i < 60; i++) {
    snprintf(key, sizeof key, "key %d", i % 37);
    dpput(depot, key, -1, "value of it", i % 11, i % 3 ? DP_DOVER : DP_DCAT);
    if (i % 5 == 4) dpout(depot, key, -1);
  }
  print_i64(dprnum(depot));
  long sum = 0;
  for (int i = 0; i < 37; i++) {
    snprintf(key, sizeof key, "key %d", i);
    sum = sum * 3 + dpvsiz(depot, key, -1);
  }
  print_i64(sum);
  print_i64(dpfsiz(depot));
  print_i64(dpclose(depot));
  return 0;
}

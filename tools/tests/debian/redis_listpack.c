// Redis's packed list of strings and numbers, in persistent memory.
#include "draw.h"
#include "listpack.h"
#include <stdio.h>

static long long sum_of(unsigned char *list) {
  long long sum = 0;
  unsigned char buffer[LP_INTBUF_SIZE];
  for (unsigned char *at = lpFirst(list); at; at = lpNext(list, at)) {
    int64_t length;
    unsigned char *text = lpGet(at, &length, buffer);
    for (int64_t i = 0; i < length; i++) sum = (sum * 31 + text[i]) % 1000000007;
  }
  return sum;
}

int main(void) {
  unsigned char *list = lpNew(0);
  char text[40];
  for (int i = 0, rounds = ROUNDS(150); i < rounds; i++) {
    int length = draw(2) ? snprintf(text, sizeof text, "%d", (int)draw(100000) - 300)
                         : snprintf(text, sizeof text, "text of number %u and %d", draw(20), i);
    if (draw(3) == 0)
      list = lpPrepend(list, (unsigned char *)text, (uint32_t)length);
    else
      list = lpAppend(list, (unsigned char *)text, (uint32_t)length);
    if (draw(5) == 0) list = lpDelete(list, lpSeek(list, (long)draw((unsigned)lpLength(list))), NULL);
    if (draw(9) == 0) list = lpInsertInteger(list, (long long)i << 30, lpSeek(list, 0), LP_AFTER, NULL);
  }
  print_i64((long long)lpLength(list));
  print_i64((long long)lpBytes(list));
  print_i64(sum_of(list));
  print_i64(lpFind(list, lpFirst(list), (unsigned char *)"77", 2, 0) != NULL);
  print_i64(lpValidateIntegrity(list, lpBytes(list), 1, NULL, NULL));
  lpFree(list);
  return 0;
}

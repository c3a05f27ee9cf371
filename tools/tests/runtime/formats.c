#include "check.h"
#include <errno.h>
#include <stdarg.h>
#include <stdio.h>
#include <stdlib.h>
#include <string.h>
#include <wchar.h>

// Notes a formatted text, cut at several sizes, and what the call answers.
__attribute__((format(printf, 1, 2))) static void format(const char *how, ...) {
  char to[120];
  for (size_t size = 0; size < sizeof to; size += 17) {
    va_list arguments;
    va_start(arguments, how);
    memset(to, 'q', sizeof to);
    note(vsnprintf(to, size, how, arguments));
    note_bytes(to, sizeof to);
    va_end(arguments);
  }
}

static void numbers(int n) {
  format("%d|%i|%u|%x|%X|%o", n, n, (unsigned)n, (unsigned)n, (unsigned)n, (unsigned)n);
  format("%5d|%-5d|%05d|%+d|% d|%.3d|%8.3d|%-8.3d|%08.3d", n, n, n, n, n, n, n, n, n);
  format("%#x|%#X|%#o|%#8x|%-#8x|%#08x|%#.5x|%#.5o", (unsigned)n, (unsigned)n, (unsigned)n, (unsigned)n, (unsigned)n,
         (unsigned)n, (unsigned)n, (unsigned)n);
  format("%*d|%-*d|%.*d", 7, n, 7, n, 4, n);
  format("%hhd|%hd|%hhu|%hx", (signed char)n, (short)n, (unsigned char)n, (unsigned short)n);
  long l = (long)n * 3000000017L;
  format("%ld|%lld|%zu|%jd|%td|%lx|%20lu|%-20ld|%+.15ld", l, (long long)l, (size_t)l, (intmax_t)l, (ptrdiff_t)l,
         (unsigned long)l, (unsigned long)l, l, l);
}

// Notes what a call answers that fails, and errno.
static void fails(const char *how, ...) {
  char to[120];
  va_list arguments;
  va_start(arguments, how);
  errno = 0;
  note(vsnprintf(to, sizeof to, how, arguments));
  note(errno);
  va_end(arguments);
}

static void others(void) {
  format("%2$d %1$s %2$+5d", "text", 7);
  format("%3$*1$d|%3$.*2$d|%4$s|%3$x", 6, 4, 12, "end");
  format("%'d|%'u|%I5d", 1234567, 1234567u, 89);
  format("%b|%#b|%B|%#B|%010b|%lb", 5u, 5u, 6u, 6u, 7u, 1ul << 62 | 1);
  format("%s|%.3s|%.6s|%8.2s|%-9s|", (char *)0, (char *)0, (char *)0, (char *)0, (char *)0);
  format("%ls|%8ls|%-8.2ls|%S|%lc|%C|%4lc|", L"wide", L"wide", L"wide", L"other", (wint_t)'c', (wint_t)'d', (wint_t)'e');
  format("%Ld|%qd|%Zu|%hhhd", 5ll, 6ll, (size_t)7, 8);
  format("%y|%-+#05.3k|%d", 5);
  fails("%ls", L"a\x100");
  fails("%lc", (wint_t)300);
  fails("text %");
  fails("text %5.3");
  fails("%99999999999d", 5);
  char message[80], same[80];
  for (int number = 0; number < 40; number += 2) {
    errno = number;
    snprintf(message, sizeof message, "%s of %s", strerror(number), "a call");
    errno = number;
    snprintf(same, sizeof same, "%m of %s", "a call");
    note(strcmp(message, same));
    errno = number;
    snprintf(same, sizeof same, "%-30m|%.3m", 1);
    note(strncmp(message, same, 3));
  }
  print_sum();
}

int main(void) {
  static const int NUMBERS[] = {0, 1, -1, 7, -42, 255, 256, 65535, 123456, -123456, 2147483647, -2147483647 - 1};
  for (unsigned i = 0; i < sizeof NUMBERS / sizeof *NUMBERS; i++) {
    numbers(NUMBERS[i]);
    print_sum();
  }
  format("%.0d|%5.0d|%.0x|%#.0o", 0, 0, 0u, 0u);
  format("%s|%10s|%-10s|%.2s|%10.2s|%-10.2s|%.*s|%s", "text", "text", "text", "text", "text", "text", 3, "text", "");
  format("%c|%3c|%-3c|%%|%p|%p|%20p", 'a', 'b', 'c', (void *)0, (void *)0x1234, (void *)0x7fffffff1234);
  print_sum();
  others();
  int at = 0;
  long far = 0;
  char to[64];
  note(sprintf(to, "%s%n-%d%ln", "abc", &at, 77, &far));
  note(at);
  note(far);
  note_bytes(to, strlen(to) + 1);
  note(snprintf(NULL, 0, "%d", 12345));
  char *made = NULL;
  note(asprintf(&made, "%s/%d/%lx", "name", 5, 0xabcdefUL));
  note_bytes(made, strlen(made) + 1);
  free(made);
  print_sum();
  return 0;
}

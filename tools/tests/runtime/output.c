#include "check.h"
#include <errno.h>
#include <stdio.h>
#include <stdlib.h>
#include <string.h>
#include <sys/utsname.h>
#include <time.h>
#include <unistd.h>

// Only results that do not depend on the system are noted, and the text goes to standard error.
int main(void) {
  note(fprintf(stderr, "%d %s\n", 12345, "text"));
  note(fputs("text\n", stderr) >= 0);
  note(fputc('a', stderr));
  note(putc('\n', stderr));
  note((long long)fwrite("abc\n", 2, 2, stderr));
  note(fflush(stderr));
  errno = EINVAL;
  perror("a message");
  note(dprintf(2, "%5d|\n", 7));
  note(write(2, "x\n", 2));
  note(fopen("no/such/file", "r") == NULL);
  note(errno);
  note(ferror(stderr));
  note(fileno(stderr));
  print_sum();
  struct timespec wait = {0, 1};
  note(nanosleep(&wait, NULL));
  time_t now, same = time(&now);
  note(same == now);
  note(getpid() > 0);
  note(getpagesize());
  note(sysconf(_SC_PAGESIZE));
  note(getenv("NO_SUCH_VARIABLE_OF_THE_TEST") == NULL);
  struct utsname name;
  note(uname(&name));
  note(strerror(EINVAL) != NULL);
  print_sum();
  return 0;
}

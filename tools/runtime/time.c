// Calls for the time. A run has no clock: each returns 0 seconds, or, with HIPPO_TIME_FROM_INPUT, the next number of
// the input as seconds. A wait ends at once.
#include "hippo.h"
#include <sys/time.h>
#include <sys/times.h>
#include <time.h>
#include <unistd.h>

static long seconds(void) {
#ifdef HIPPO_TIME_FROM_INPUT
  return read_i64();
#else
  return 0;
#endif
}

time_t time(time_t *to) {
  time_t now = seconds();
  if (to) *to = now;
  return now;
}

clock_t clock(void) { return seconds() * CLOCKS_PER_SEC; }

clock_t times(struct tms *to) {
  clock_t now = seconds();
  to->tms_utime = to->tms_stime = to->tms_cutime = to->tms_cstime = 0;
  return now;
}

int gettimeofday(struct timeval *restrict to, void *restrict zone) {
  (void)zone;
  to->tv_sec = seconds();
  to->tv_usec = 0;
  return 0;
}

int clock_gettime(clockid_t clock_id, struct timespec *to) {
  (void)clock_id;
  to->tv_sec = seconds();
  to->tv_nsec = 0;
  return 0;
}

int clock_getres(clockid_t clock_id, struct timespec *to) {
  (void)clock_id;
  if (to) to->tv_sec = 1, to->tv_nsec = 0;
  return 0;
}

int nanosleep(const struct timespec *wait, struct timespec *left) {
  (void)wait;
  if (left) left->tv_sec = left->tv_nsec = 0;
  return 0;
}

unsigned sleep(unsigned wait) {
  (void)wait;
  return 0;
}

int usleep(useconds_t wait) {
  (void)wait;
  return 0;
}

// Days and hours of times, and times of days and hours.
#include "check.h"
#include <errno.h>
#include <string.h>
#include <time.h>

static void note_time(const struct tm *time) {
  note(time != NULL);
  if (!time) {
    note(errno);
    return;
  }
  note(time->tm_sec), note(time->tm_min), note(time->tm_hour), note(time->tm_mday), note(time->tm_mon), note(time->tm_year);
  note(time->tm_wday), note(time->tm_yday), note(time->tm_isdst), note(time->tm_gmtoff), note_bytes(time->tm_zone, 3);
}

static time_t drawn_time(void) {
  uint64_t bits = ((uint64_t)draw(1u << 21) << 42) ^ ((uint64_t)draw(1u << 21) << 21) ^ draw(1u << 21);
  return (time_t)bits >> draw(64);
}

static void forth(void) {
  static const time_t edges[] = {0, -1, 951782399, 951782400, 951868800, 68256000, 4107542400, -2203891200, 67768036191676799,
                                 67768036191676800, -67768040609740800, -67768040609740801};
  for (unsigned i = 0; i < sizeof edges / sizeof *edges; i++) {
    struct tm place;
    note_time(gmtime_r(&edges[i], &place)), note_time(localtime_r(&edges[i], &place));
    print_sum();
  }
  for (int i = 0; i < 400; i++) {
    time_t time = drawn_time();
    note_time(gmtime(&time)), note_time(localtime(&time));
  }
  print_sum();
}

static void back(void) {
  for (int i = 0; i < 400; i++) {
    struct tm time;
    memset(&time, 0, sizeof time);
    time.tm_year = (int)draw(4000) - 2000, time.tm_mon = (int)draw(60) - 30, time.tm_mday = (int)draw(200) - 100;
    time.tm_hour = (int)draw(100) - 50, time.tm_min = (int)draw(1000) - 500, time.tm_sec = (int)draw(100000) - 50000;
    struct tm same = time;
    note(timegm(&time)), note_time(&time);
    note(mktime(&same)), note_time(&same);
  }
  print_sum();
}

int main(void) {
  tzset();
  forth();
  back();
  return 0;
}

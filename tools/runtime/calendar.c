// Days and hours of a time. The local time is Universal Time, as where neither TZ nor /etc/localtime names a zone.
#include <errno.h>
#include <limits.h>
#include <string.h>
#include <time.h>

enum { MINUTE = 60, HOUR = 3600, DAY = 86400, DAYS_OF_400_YEARS = 146097 };

// The days before each month, counted from March: a leap day then ends its year.
static const short before_month[] = {0, 31, 61, 92, 122, 153, 184, 214, 245, 275, 306, 337};

static long quotient(long number, long divisor) { return number / divisor - (number % divisor < 0); }

// The days from 1970 to the beginning of a month; the month, from 0, may be any number.
static long days_before(long year, long month) {
  year += quotient(month, 12);
  month -= quotient(month, 12) * 12;
  if (month < 2) year--;
  long century_4 = quotient(year, 400), rest = year - century_4 * 400;
  return century_4 * DAYS_OF_400_YEARS + rest * 365 + rest / 4 - rest / 100 + before_month[(month + 10) % 12] - 719468;
}

struct tm *gmtime_r(const time_t *restrict from, struct tm *restrict to) {
  long days = quotient(*from, DAY), second = *from - days * DAY;
  // From March of the year 0: which 400 years, which day of them, which year of them.
  long shifted = days + 719468, century_4 = quotient(shifted, DAYS_OF_400_YEARS), day = shifted - century_4 * DAYS_OF_400_YEARS;
  long year = (day - day / 1460 + day / 36524 - day / 146096) / 365, month = 11;
  day -= year * 365 + year / 4 - year / 100;
  while (before_month[month] > day) month--;
  day -= before_month[month];
  month = (month + 2) % 12;
  year += century_4 * 400 + (month < 2);
  if (year - 1900 > INT_MAX || year - 1900 < INT_MIN) {
    errno = EOVERFLOW;
    return NULL;
  }
  memset(to, 0, sizeof *to);
  to->tm_sec = (int)(second % MINUTE), to->tm_min = (int)(second / MINUTE % 60), to->tm_hour = (int)(second / HOUR);
  to->tm_mday = (int)day + 1, to->tm_mon = (int)month, to->tm_year = (int)(year - 1900);
  to->tm_wday = (int)(days + 4 - quotient(days + 4, 7) * 7), to->tm_yday = (int)(days - days_before(year, 0));
  to->tm_zone = "GMT";
  return to;
}

struct tm *localtime_r(const time_t *restrict from, struct tm *restrict to) {
  struct tm *made = gmtime_r(from, to);
  if (made) made->tm_zone = "UTC";
  return made;
}

// Both functions without a place of the caller share one, as in the C library.
static struct tm shared;

struct tm *gmtime(const time_t *from) { return gmtime_r(from, &shared); }

struct tm *localtime(const time_t *from) { return localtime_r(from, &shared); }

static time_t seconds_of(struct tm *time, struct tm *(*break_down)(const time_t *restrict, struct tm *restrict)) {
  long days = days_before(time->tm_year + 1900L, time->tm_mon) + time->tm_mday - 1;
  time_t seconds = ((days * 24 + time->tm_hour) * 60 + time->tm_min) * 60 + time->tm_sec;
  struct tm whole;
  if (!break_down(&seconds, &whole)) return -1;
  *time = whole;
  return seconds;
}

time_t timegm(struct tm *time) { return seconds_of(time, gmtime_r); }

time_t mktime(struct tm *time) { return seconds_of(time, localtime_r); }

void tzset(void) {}

// Functions with variable arguments: numbers, pointers, structs, a list that is copied and passed on.
#include <hippo.h>
#include <stdarg.h>

struct pair { long long a; int b; };
struct large { long long words[4]; };
struct aligned { _Alignas(16) long long a; long long b, c; };

static long long sum_list(int count, va_list list) {
  long long sum = 0;
  while (count--) sum += va_arg(list, int);
  return sum;
}

static long long sum(int count, ...) {
  va_list list, again;
  va_start(list, count);
  va_copy(again, list);
  long long found = sum_list(count, list) * 1000 + sum_list(count, again);
  va_end(list);
  va_end(again);
  return found;
}

static long long mixed(const char *form, ...) {
  va_list list;
  va_start(list, form);
  long long found = 0;
  for (; *form; form++) {
    switch (*form) {
    case 'i': found = found * 3 + va_arg(list, int); break;
    case 'l': found = found * 3 + va_arg(list, long long); break;
    case 'c': found = found * 3 + (char)va_arg(list, int); break;
    case 's': found = found * 3 + va_arg(list, const char *)[0]; break;
    case 'q': { __int128 q = va_arg(list, __int128); found = found * 3 + (long long)(q >> 64) * 5 + (long long)q; break; }
    case 'p': { struct pair p = va_arg(list, struct pair); found = found * 3 + p.a + p.b; break; }
    case 'a': { struct aligned a = va_arg(list, struct aligned); found = found * 3 + a.a * 5 + a.b * 7 + a.c; break; }
    case 'm': { struct large m = va_arg(list, struct large); found = found * 3 + m.words[0] + m.words[3]; break; }
    }
  }
  va_end(list);
  return found;
}

static long long many(int a, int b, int c, int d, int e, int f, const char *form, ...) {
  va_list list;
  va_start(list, form);
  __int128 q = va_arg(list, __int128);
  long long l = va_arg(list, long long);
  struct pair p = va_arg(list, struct pair);
  va_end(list);
  return a + b + c + d + e + f + form[0] + (long long)(q >> 64) * 5 + (long long)q + l * 7 + p.a * 11 + p.b;
}

static struct large returned(int count, ...) {
  va_list list;
  va_start(list, count);
  long long l = va_arg(list, long long);
  __int128 q = va_arg(list, __int128);
  int i = va_arg(list, int);
  va_end(list);
  return (struct large){{count, l, (long long)(q >> 64) * 5 + (long long)q * 3 + i, 0}};
}

static long long (*volatile by_pointer)(int, ...) = sum;

int main(void) {
  print_i64(sum(0));
  print_i64(sum(3, 1, -2, 7));
  print_i64(sum(9, 1, 2, 3, 4, 5, 6, 7, 8, 9));
  print_i64(mixed("ilcs", 5, 1ll << 40, 'x', "abc"));
  print_i64(mixed("ipmi", 1, (struct pair){2, 3}, (struct large){{4, 5, 6, 7}}, -8));
  print_i64(mixed("iiiiiip", 1, 2, 3, 4, 5, 6, (struct pair){7, 8}));
  print_i64(mixed("iiiiiqiqqi", 1, 2, 3, 4, 5, (__int128)7 << 64 | 8, 6, (__int128)2 << 64 | 3, -(__int128)9, 4));
  print_i64(mixed("q", (__int128)7 << 64 | 8));
  print_i64(mixed("iiiiiiaia", 1, 2, 3, 4, 5, 6, (struct aligned){.a = 1, .b = 2, .c = 3}, 7, (struct aligned){.a = 4, .b = 5, .c = 6}));
  print_i64(mixed("iqlqpqm", 1, (__int128)2 << 64 | 3, 4ll, (__int128)5, (struct pair){6, 7}, -(__int128)8, (struct large){{9, 10, 11, 12}}));
  print_i64(many(1, 2, 3, 4, 5, 6, "qlp", (__int128)7 << 64 | 8, 9ll, (struct pair){10, 11}));
  print_i64(returned(1, 2ll, (__int128)3 << 64 | 4, 5).words[2]);
  print_i64(by_pointer(2, 30, 12));
  return 0;
}

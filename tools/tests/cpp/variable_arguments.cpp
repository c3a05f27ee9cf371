// Variable arguments of whole numbers, floating-point numbers and pointers, in one list, and by a virtual function.
#include <cstdarg>
#include <cstdio>
#include <hippo.h>

struct Sink {
  long sum = 0;
  virtual void put(const char *form, ...) {
    va_list list;
    va_start(list, form);
    for (; *form; form++) {
      if (*form == 'd') sum = sum * 3 + static_cast<long>(va_arg(list, double) * 4);
      if (*form == 'l') sum = sum * 5 + va_arg(list, long);
      if (*form == 'i') sum = sum * 7 + va_arg(list, int);
      if (*form == 's') sum = sum * 11 + *va_arg(list, const char *);
    }
    va_end(list);
  }
};

struct Other : Sink {
  void put(const char *form, ...) override { sum += *form; }
};

int main() {
  Sink sink;
  sink.put("dld", 2.5, 7L, 0.25);
  print_i64(sink.sum);
  sink.put("ddddddddddlid", 1., 2., 3., 4., 5., 6., 7., 8., 9., 10., 11L, 12, 13.5);
  print_i64(sink.sum);
  sink.put("sis", "a", -1, "b");
  print_i64(sink.sum);
  Other other;
  Sink *any = &other;
  any->put("dl", 1.5, 2L);
  print_i64(any->sum);
  char text[64];
  print_i64(std::snprintf(text, sizeof text, "%.3f %d %5.1e %s", 2.0625, 42, 12345.678, "end"));
  long letters = 0;
  for (const char *at = text; *at; at++) letters = letters * 31 + *at;
  print_i64(letters);
  return 0;
}

// Structs and unions of many shapes: by value, as results, as variable arguments, as persistent data with initial values.
// input: 3
#include <hippo.h>
#include <stdarg.h>
#include <stddef.h>
#include <string.h>

typedef struct { float a; int b; } mixed;
typedef struct { double a; float b; } floats;
typedef struct { _Complex float value; } complex_field;
typedef struct { char bytes[16]; } in_registers;
typedef struct { char bytes[17]; } in_memory;
typedef struct { short parts[3]; } odd;
typedef struct { int a : 5; long b : 40; } bits;
typedef struct { } empty;
typedef struct { empty none; int x; } after_empty;
typedef struct { long double value; int n; } extended;
typedef union { double number; long word; float parts[2]; } either;
typedef struct __attribute__((aligned(64))) { unsigned __int128 number; _Alignas(32) char body[40]; short sum; } line;

#define OUT __attribute__((noinline)) static
OUT mixed of_mixed(mixed m, empty e, int k) { (void)e; m.a += k; m.b *= 2; return m; }
OUT floats of_floats(floats f) { f.a *= f.b; return f; }
OUT complex_field of_complex(complex_field c, _Complex double d) { c.value += d; return c; }
OUT in_registers of_registers(in_registers r) { r.bytes[15]++; return r; }
OUT in_memory of_memory(in_memory m) { m.bytes[16]++; return m; }
OUT odd of_odd(odd o) { o.parts[2] += o.parts[0]; return o; }
OUT bits of_bits(bits b) { b.b -= b.a; return b; }
OUT after_empty of_empty(after_empty a, after_empty b) { a.x += b.x; return a; }
OUT extended of_extended(extended e) { e.n++; return e; }
OUT either of_either(either u, long k) { u.word ^= k; return u; }
OUT line of_line(line l, int k) { l.number += (unsigned __int128)k << 90; l.body[39] = k; l.sum += k; return l; }

OUT long all(int count, ...) {
  va_list list;
  va_start(list, count);
  long sum = va_arg(list, mixed).b;
  sum = sum * 3 + (long)va_arg(list, floats).a;
  sum = sum * 3 + va_arg(list, in_memory).bytes[16];
  sum = sum * 3 + va_arg(list, extended).n;
  sum = sum * 3 + va_arg(list, odd).parts[2];
  sum = sum * 3 + va_arg(list, either).word;
  sum = sum * 3 + va_arg(list, after_empty).x;
  line last = va_arg(list, line);
  va_end(list);
  return sum * 3 + last.body[39] + (long)(last.number >> 90) + ((unsigned long)&last % 64 == 0) + count;
}

struct entry { short key; struct { long value; char tag; } of[]; };
PERSISTENT struct entry flexible = {2, {{7, 'a'}, {-9, 'b'}}};
PERSISTENT char after = 3;
PERSISTENT struct __attribute__((packed)) {
  char tag;
  union { struct { unsigned length : 24, kind : 8; char text[20]; } text; struct { long p : 48, q : 16; } parts; } is;
  __int128 wide;
  line lines[2];
} cells[2] = {{1, {.text = {5, 200, "first"}}, (__int128)5 << 70, {{.sum = 4}}}};
PERSISTENT _BitInt(37) narrow = -5;
PERSISTENT struct { void *at; long double number; char *last; } pointers = {&cells[1], -2.25L, &flexible.of[1].tag};

static void by_value(int k) {
  mixed m = of_mixed((mixed){1.5f, 2}, (empty){}, k);
  floats f = of_floats((floats){1.5, 2.5f});
  complex_field c = of_complex((complex_field){3.0f + 4.0fi}, 1.0 + 2.0i);
  in_memory large = of_memory((in_memory){"abcdefghijklmnop"});
  odd o = of_odd((odd){{1, 2, 3}});
  after_empty e = of_empty((after_empty){.x = 4}, (after_empty){.x = k});
  extended x = of_extended((extended){1.25L, k});
  either u = of_either((either){.word = 77}, k);
  line l = of_line(of_line((line){.sum = 1}, k), 2);
  print_i64((long)(m.a * 10) + m.b + (long)(f.a * 100) + (long)(__real__ c.value * 10 + __imag__ c.value));
  print_i64(of_registers((in_registers){"abcdefghijklmno"}).bytes[15] + large.bytes[16] + o.parts[2] + e.x + u.word + l.sum);
  print_i64(of_bits((bits){-3, 1L << 35}).b);
  print_i64(all(k, m, f, large, x, o, u, e, l));
}

static void in_data(int k) {
  flexible.of[1].value += k;
  print_i64(flexible.of[0].value * 100 + flexible.of[1].value + flexible.of[1].tag + after);
  cells[1] = cells[0];
  cells[1].is.parts.p -= 1000000007L * k;
  cells[1].lines[1] = of_line(cells[0].lines[0], k);
  print_i64(cells[1].is.text.length + cells[1].is.text.kind + cells[1].is.parts.q);
  print_i64((long)(cells[1].wide >> 64) + cells[1].lines[1].sum + (long)(cells[1].lines[1].number >> 88));
  narrow *= 1234567 * k;
  print_i64((long)narrow);
  print_i64(pointers.at == &cells[1]);
  print_i64(*pointers.last + *(char *)pointers.at);
  long sum = 0;
  const unsigned char *bytes = (const unsigned char *)&cells[1];
  for (const unsigned char *end = (const unsigned char *)cells[1].lines; bytes < end; bytes++) sum = sum * 31 + *bytes;
  print_i64(sum);
  print_i64(memcmp(&pointers.number, &(long double){-2.25L}, 10));
  print_i64((long)(sizeof cells + sizeof pointers + offsetof(line, sum)));
}

int main(void) {
  int k = (int)read_i64();
  by_value(k);
  in_data(k);
  return 0;
}

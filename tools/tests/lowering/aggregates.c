// Structs as parameters and results, in registers and in memory, and through pointers to functions.
#include <hippo.h>

struct pair { long long a, b; };
struct mixed { long long a; int b; short c; };
struct small { char bytes[3]; };
struct six { unsigned char bytes[6]; };
struct large { long long words[5]; };
union either { long long number; void *pointer; char bytes[8]; };

struct pair swapped(struct pair of);
struct pair make(long long a, long long b) { return (struct pair){a, b}; }
struct pair swapped(struct pair of) { return make(of.b, of.a); }
static struct mixed mix(struct mixed m, int by) { m.a += by; m.b -= by; m.c = (short)(m.c * by); return m; }
static struct small turn(struct small s) { return (struct small){{s.bytes[2], s.bytes[0], s.bytes[1]}}; }
static struct six six(struct six s, int by) { for (int i = 0; i < 6; i++) s.bytes[i] += by * i; return s; }
static struct large grow(struct large l, long long by) { for (int i = 0; i < 5; i++) l.words[i] += by * i; return l; }
static long long sum(struct large l) { long long s = 0; for (int i = 0; i < 5; i++) { s += l.words[i]; l.words[i] = 0; } return s; }
static union either other(union either e) { e.number ^= 255; return e; }
static struct pair chosen(int which, struct pair a, struct pair b) { return which ? a : b; }

static struct pair (*volatile function)(struct pair) = swapped;
static struct large (*volatile by_memory)(struct large, long long) = grow;

int main(void) {
  struct pair p = swapped(make(3, 4));
  print_i64(p.a * 10 + p.b);
  p = function(p);
  print_i64(p.a * 10 + p.b);
  struct mixed m = mix((struct mixed){1, 2, 3}, 5);
  print_i64(m.a * 10000 + m.b * 100 + m.c);
  struct small s = turn((struct small){{1, 2, -3}});
  print_i64(s.bytes[0] * 100 + s.bytes[1] * 10 + s.bytes[2]);
  struct six x = six((struct six){{1, 2, 3, 4, 5, 250}}, 3);
  for (int i = 0; i < 6; i++) print_i64(x.bytes[i]);
  struct large l = {{1, 2, 3, 4, 5}};
  print_i64(sum(l));
  struct large g = grow(l, read_i64() + 1);
  print_i64(sum(g) + sum(l));
  print_i64(sum(by_memory(g, 2)));
  print_i64(other((union either){.number = 77}).number);
  p = chosen(p.a > 3, p, make(8, 9));
  print_i64(p.a * 10 + p.b);
  return 0;
}

// Packed bit fields, which clang reads and writes in integers of many bits.
// input: 3 1 4 1 5 9 2 6 5 3
#include <hippo.h>
#include <stdint.h>

#pragma pack(push, 1)
struct wide {
  signed a : 29;
  unsigned b : 23;
  volatile signed c : 31;
  unsigned d : 27;
  signed long long e : 45;
  unsigned f : 3;
  unsigned char g;
};
#pragma pack(pop)
struct holder { char tag; struct wide list[3]; short end; };
static struct holder holder = {1, {{-5, 6, -7, 8, -9, 1, 10}, {11, 12, 13, 14, 15, 2, 16}}, 17};
PERSISTENT struct wide saved = {1, 2, 3, 4, 5, 6, 7};
typedef unsigned _BitInt(200) huge;
static huge number = 12345;
static _BitInt(77) odd = -3;

static void show(const struct wide *w) {
  print_i64(w->a); print_i64(w->b); print_i64(w->c); print_i64(w->d); print_i64(w->e); print_i64(w->f); print_i64(w->g);
}

static struct wide change(struct wide w, int by) {
  w.a += by; w.b -= (unsigned)by; w.c ^= by * 77; w.d <<= by & 3; w.e *= by + 2; w.f++; w.g = (unsigned char)(w.g + by);
  return w;
}

int main(void) {
  for (int i = 0; i < 5; i++) {
    int by = (int)read_i64();
    holder.list[i % 3] = change(holder.list[(i + 1) % 3], by);
    saved = change(saved, by - 2);
    pmem_persist(&saved, sizeof saved);
    show(&holder.list[i % 3]);
    show(&saved);
    number = (number << 37) ^ (number >> 11) ^ (huge)(unsigned)by;
    number += (huge)1 << 130; number = number - (huge)7 | (huge)by;
    print_i64((long long)number); print_i64((long long)(number >> 64)); print_i64((long long)(number >> 128));
    print_i64((long long)(number >> 192)); print_i64((number > (huge)1 << 190) + (number == 5) * 2);
    odd = odd * 5 + by; print_i64((long long)odd); print_i64((long long)(odd >> 60)); print_i64(odd < -4);
  }
  print_i64(holder.end + holder.tag + (long long)sizeof holder);
  return 0;
}

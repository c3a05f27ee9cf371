// Constants that are addresses, numbers of addresses, unions and gaps.
#include <hippo.h>
#include <setjmp.h>
#include <stdint.h>

static int numbers[10] = {[3] = 4, [9] = -1};
static int *const middle = &numbers[5];
static uintptr_t as_number = (uintptr_t)&numbers[2];
static struct { uintptr_t where; int x; } tagged[2] = {{(uintptr_t)numbers + 8, 1}, {77, 2}};
static void *const odd = (void *)0xdead;
static union { struct { int a, b; } pair; double unused; long long whole; } both = {.pair = {1, 2}};
static struct { char c; union { char text[5]; int n; } u; } holes = {1, {"abc"}};
static const char *const words[] = {"zero", "one", 0, "three"};
static struct list { struct list *next; int value; } third = {0, 3}, second = {&third, 2}, first = {&second, 1};
static jmp_buf buffer;

int main(void) {
  int n = (int)read_i64();
  print_i64((long long)((uintptr_t)middle - (uintptr_t)numbers));
  print_i64((long long)(as_number - (uintptr_t)numbers) + *(int *)(as_number + 4));
  print_i64((long long)(tagged[n].where - (uintptr_t)numbers) + (long long)tagged[1].where);
  print_i64((long long)(uintptr_t)odd + (odd == (void *)0xdead));
  print_i64(both.whole);
  print_i64(holes.u.n + holes.u.text[4]);
  print_i64(words[n][1] + words[n + 1][2] + words[3][4] + (words[2] == 0));
  long long sum = 0;
  for (struct list *at = &first; at; at = at->next) sum = sum * 10 + at->value;
  print_i64(sum);
  int *chosen = n ? &numbers[1] : n + 1 > 0 ? (int *)(uintptr_t)0x10 : 0;
  print_i64((long long)(uintptr_t)chosen);
  if (setjmp(buffer)) { return 1; }
  print_i64(((uintptr_t)&first ^ (uintptr_t)&first) + 9);
  return 0;
}

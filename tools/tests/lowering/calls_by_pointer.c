// Calls by pointer: tables, fields, persistent data, parameters, a pointer that is compared, and one without a prototype.
#include <hippo.h>

typedef long long (*operation)(long long, long long);
struct entry {
  const char *name;
  operation run;
  struct entry *next;
};

static long long plus(long long a, long long b) { return a + b; }
static long long minus(long long a, long long b) { return a - b; }
static long long times(long long a, long long b) { return a * b; }
static void note(long long a) { print_i64(a * 100); }
static void ignore(long long a) { (void)a; }

static const operation table[] = {plus, minus, times};
static struct entry last = {"times", times, 0};
static struct entry first = {"minus", minus, &last};
PERSISTENT operation saved = plus;
void (*volatile report)(long long) = note;
static void (*volatile persist)(const void *, size_t) = pmem_persist;
static const char *const message = "a text with @ignore and @main in it";

static long long apply(operation run, long long a, long long b) { return run ? run(a, b) : -1; }
static int compare(const void *a, const void *b) { return *(const int *)a - *(const int *)b; }
static int (*comparison(int which))(const void *, const void *) { return which ? compare : 0; }

static void sort(int *from, int count, int (*order)(const void *, const void *)) {
  for (int i = 1; i < count; i++) {
    for (int k = i; k > 0 && order(&from[k - 1], &from[k]) > 0; k--) {
      int swapped = from[k];
      from[k] = from[k - 1];
      from[k - 1] = swapped;
    }
  }
}

int main(void) {
  for (int i = 0; i < 3; i++) {
    print_i64(table[i](20, 3));
  }
  for (struct entry *at = &first; at; at = at->next) {
    print_i64(at->run(7, 5));
  }
  print_i64(saved(1, 2));
  saved = minus;
  persist(&saved, sizeof saved);
  print_i64(saved(1, 2) + message[12]);
  print_i64(apply(0, 1, 2));
  print_i64(apply(table[2], 6, 7));
  report(3);
  report = ignore;
  report(4);
  int numbers[] = {5, 2, 9, -4, 7};
  sort(numbers, 5, comparison(1));
  for (int i = 0; i < 5; i++) {
    print_i64(numbers[i]);
  }
  print_i64(comparison(0) == 0);
  print_i64(comparison(1) == compare);
  print_i64(table[0] == plus && table[1] != plus);
  return 0;
}

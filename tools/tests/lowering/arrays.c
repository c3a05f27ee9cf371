// Arrays of variable length up to a bound, alloca, and jumps to labels.
// options: --array-bound 4K
#include <hippo.h>
#include <stddef.h>

static long long sum(int n) {
  long long numbers[n], found = 0;
  for (int i = 0; i < n; i++) numbers[i] = i * i + n;
  for (int i = 0; i < n; i++) found += numbers[i];
  return found;
}

static int grid(int rows, int columns) {
  int found = 0;
  for (int turn = 0; turn < 300; turn++) {
    char cells[rows][columns];
    for (int i = 0; i < rows; i++) for (int k = 0; k < columns; k++) cells[i][k] = (char)(i ^ k ^ turn);
    found += cells[rows - 1][columns - 1] + (int)sizeof cells;
  }
  return found;
}

static long long list(int n) {
  struct node { struct node *next; long long value; } *first = 0;
  for (int i = 0; i < n; i++) {
    struct node *node = __builtin_alloca(sizeof *node);
    node->next = first; node->value = i; first = node;
  }
  long long found = 0;
  for (; first; first = first->next) found = found * 3 + first->value;
  return found;
}

static long long machine(const char *code) {
  static const void *const labels[] = {&&stop, &&more, &&twice, &&less};
  long long value = 1;
  goto *labels[(int)*code++ - '0'];
more:
  value += 5;
  goto *labels[(int)*code++ - '0'];
twice:
  value *= 2;
  goto *labels[(int)*code++ - '0'];
less:
  value -= 3;
  goto *labels[(int)*code++ - '0'];
stop:
  return value;
}

static int distances(int n) {
  static const int table[] = {&&one - &&one, &&two - &&one, &&three - &&one};
  goto *(&&one + table[n]);
one:
  return 1;
two:
  return 2;
three:
  return 3;
}

int main(void) {
  print_i64(distances((int)read_i64()) * 10 + distances(2));
  print_i64(sum((int)read_i64() + 10));
  print_i64(grid(7, (int)read_i64() + 20));
  print_i64(list(9));
  print_i64(machine("12213210"));
  return 0;
}

// setjmp and longjmp: through many frames, in a recursion, nested, out of called functions and calls by pointer, in loops and switches,
// and out of a function of which clang knows that it does not return. `result` in `nested` is not volatile, so C leaves its value open
// after a jump: lowered code has the last one at each level, as native code has at -O0.
// native: -O0
#include <hippo.h>
#include <setjmp.h>
#include <stdlib.h>
#include <string.h>

struct block { struct block *outer; jmp_buf at; int failed; };
static struct block *current;
static jmp_buf plain;
static long long steps[16];
static int count;

static void note(long long value) {
  steps[count++ % 16] = value;
  print_i64(value);
}

static _Noreturn void leave(int value) {
  note(value * 10);
  longjmp(plain, value);
}

static long long deep(int depth, int value) {
  note(depth);
  if (depth == 0) leave(value);
  long long below = deep(depth - 1, value);
  note(-1);
  return below + 1;
}

static int six_frames(int value) {
  int again = setjmp(plain);
  if (again) return again;
  return (int)deep(6, value);
}

// A function of its own for each level of a recursion: each level catches what the next one throws.
static int levels(int depth) {
  jmp_buf mine;
  volatile int seen = 0;
  int way = setjmp(mine);
  note(depth * 100 + way);
  if (way == 0) {
    if (depth) seen = levels(depth - 1);
    memcpy(plain, mine, sizeof plain);
    leave(depth + 1);
  }
  return seen * 10 + way;
}

// Nested blocks, as transactions make them.
static void begin(struct block *block) {
  block->outer = current;
  block->failed = 0;
  current = block;
}
static void fail(int value) {
  current->failed = value;
  longjmp(current->at, value);
}
static void (*volatile fail_by_pointer)(int) = fail;
static void end(struct block *block) { current = block->outer; }

static int nested(int inner_value, int outer_value) {
  struct block outer, inner;
  int result = 0;
  begin(&outer);
  switch (setjmp(outer.at)) {
  case 0:
    begin(&inner);
    if (setjmp(inner.at) == 0) {
      if (inner_value) fail(inner_value);
      note(1);
    } else {
      note(inner.failed);
      result += 1;
    }
    end(&inner);
    if (outer_value) fail_by_pointer(outer_value);
    result += 10;
    break;
  case 7:
    result += 700;
    break;
  default:
    note(outer.failed);
    result += 100;
  }
  end(&outer);
  return result;
}

static int compare(const void *a, const void *b) {
  if (*(const int *)a == 4) longjmp(plain, 4);
  return *(const int *)a - *(const int *)b;
}

static int out_of_library(int last) {
  int numbers[] = {9, 8, 7, last};
  if (setjmp(plain)) return -1;
  qsort(numbers, 4, sizeof numbers[0], compare);
  return numbers[0];
}

static int in_a_loop(void) {
  volatile int rounds = 0;
  for (volatile int i = 0; i < 3; i++) {
    if (!setjmp(plain)) {
      if (i == 1) leave(2);
      rounds += 1;
    } else
      rounds += 10;
  }
  return rounds;
}

static int zero_becomes_one(void) {
  sigjmp_buf buffer;
  int way = sigsetjmp(buffer, 1);
  if (way) return way;
  siglongjmp(buffer, 0);
}

// A jump to an outer frame goes past one that has a target of its own.
static jmp_buf beyond;

static int with_a_target(int value) {
  jmp_buf mine;
  int way = setjmp(mine);
  note(300 + way);
  if (way == 0) longjmp(beyond, value);
  return way;
}

static int past_a_target(int value) {
  int way = setjmp(beyond);
  note(200 + way);
  return way ? way : with_a_target(value);
}

int main(void) {
  note(past_a_target(5));
  note(six_frames(3));
  note(levels(3));
  for (int inner = 0; inner < 2; inner++)
    for (int outer = 0; outer < 8; outer += 7) note(nested(inner * 5, outer));
  note(nested(5, 9));
  note(out_of_library(4));
  note(out_of_library(5));
  note(in_a_loop());
  note(zero_becomes_one());
  if (setjmp(plain) == 0) leave(5);
  note(count);
  return 3;
}

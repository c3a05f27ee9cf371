"""Detours of numbers and addresses by `setjmp` and `longjmp`."""
from __future__ import annotations

import random
from string import Template

KEPT = "__attribute__((noinline)) "
THROUGH_JUMP = """$static
${kept}long ${name}_deep(long n, long k, $type *at) {
  char room[$odd];
  touch(room);
  if (!n) $jump(*at, (int)k + 1);
  long below = ${name}_deep(n - 1, k, at);
  touch(room);
  return below + 1;
}
long $name(long k) {
  $local
  int way = $set;
  if (!way) return ${name}_deep($depth, k, &$at);
  return way - 1;
}"""


def through_jump(chance: random.Random, name: str) -> str:
    """A jump out of some calls; its value is the number."""
    jump, set_, type_ = chance.choice(
        [("longjmp", "setjmp(%s)", "jmp_buf"), ("siglongjmp", "sigsetjmp(%s, 1)", "sigjmp_buf")]
    )
    static, local, at = chance.choice(
        [
            (f"static {type_} {name}_at;", "", f"{name}_at"),
            ("", f"{type_} at;", "at"),
            ("", f"struct {{ char before; {type_} at; }} both;", "both.at"),
        ]
    )
    return Template(THROUGH_JUMP).substitute(
        kept=KEPT,
        name=name,
        type=type_,
        odd=chance.choice([1, 8, 9, 17]),
        jump=jump,
        set=set_ % at,
        at=at,
        static=static,
        local=local,
        depth=chance.randrange(6),
    )


def through_jumps_back(chance: random.Random, name: str) -> str:
    """As many jumps back as the number says; some call by pointer."""
    call = chance.choice([f"{name}_back(&at, n)", f"({name}_by ? {name}_by : 0)(&at, n)"])
    return Template(
        """static ${kept}void ${name}_back(jmp_buf *at, long n) { longjmp(*at, (int)(n % $some)); }
static void (*volatile ${name}_by)(jmp_buf *, long) = ${name}_back;
long $name(long k) {
  jmp_buf at;
  volatile long n = 0;
  if (setjmp(at) > $some) return -1;
  if (n < k) {
    n++;
    $call;
  }
  return n;
}"""
    ).substitute(kept=KEPT, name=name, some=chance.randint(1, 5), call=call)


def through_nested_jumps(chance: random.Random, name: str) -> str:
    """Each level of a recursion catches the jump of the one below, and jumps on."""
    return Template(
        """static jmp_buf *${name}_to;
long ${name}_by(long depth, long k) {
  jmp_buf at, *kept = ${name}_to;
  switch (setjmp(at)) {
  case 0:
    ${name}_to = &at;
    if (depth) (void)${name}_by(depth - 1, k);
    longjmp(*${name}_to, depth & 1 ? 2 : 3);
  case $way:
    ${name}_to = kept;
    if (kept) longjmp(*kept, 2 + (depth & 1));
    return k;
  default:
    ${name}_to = kept;
    if (kept) longjmp(*kept, 3 - (depth & 1));
  }
  return k;
}
long $name(long k) { return ${name}_by($depth, k); }"""
    ).substitute(name=name, way=chance.choice([1, 2, 3]), depth=chance.randrange(5))


def through_jump_out_of_library(chance: random.Random, name: str) -> str:
    """A jump out of the function that `qsort` or `bsearch` calls."""
    call = chance.choice(
        [
            "qsort(all, $count, sizeof *all, ${name}_order);",
            "(void)bsearch(&k, all, $count, sizeof *all, ${name}_order);",
        ]
    )
    return Template(
        """static jmp_buf ${name}_at;
static long ${name}_left;
static int ${name}_order(const void *a, const void *b) {
  if (!${name}_left--) longjmp(${name}_at, 1);
  return *(const long *)a < *(const long *)b ? -1 : *(const long *)a > *(const long *)b;
}
long $name(long k) {
  long all[$count];
  for (long i = 0; i < $count; i++) all[i] = (i * 5 + k) % $count;
  ${name}_left = $left;
  if (!setjmp(${name}_at)) """
        + call
        + """
  return k;
}"""
    ).substitute(name=name, count=chance.randint(3, 12), left=chance.randrange(4))


def by_jump(chance: random.Random, name: str) -> str:
    """The address is in a local variable or in the struct of a buffer while a called function jumps back."""
    return Template(
        """struct ${name}_s { $before jmp_buf at; void *p; };
static ${kept}void ${name}_leave(struct ${name}_s *s) {
  s->p = same(s->p);
  longjmp(s->at, $value);
}
void *$name(void *p) {
  struct ${name}_s s;
  s.p = p;
  if (!setjmp(s.at)) ${name}_leave(&s);
  return $found;
}"""
    ).substitute(
        kept=KEPT,
        name=name,
        before=chance.choice(["", "char c;", "void *other[3];"]),
        value=chance.randint(0, 3),
        found=chance.choice(["s.p", "p", "s.p == p ? p : 0"]),
    )


NUMBERS = [through_jump, through_jumps_back, through_nested_jumps, through_jump_out_of_library]
POINTERS = [by_jump]

"""Detours of numbers by jumps, recursion and switches."""
from __future__ import annotations

import random
from string import Template

KEPT = "__attribute__((noinline)) "


def through_goto(chance: random.Random, name: str) -> str:
    """A count of jumps; by addresses of labels or by plain ones."""
    if chance.random() < 0.5:
        return Template(
            """long $name(long k) {
  static void *const table[] = { &&out, &&more, &&more_too };
  long n = 0;
  again:
  goto *table[n < k ? 1 + (n & 1) : 0];
  more:
  n++;
  goto again;
  more_too:
  n += 1;
  goto again;
  out:
  return n;
}"""
        ).substitute(name=name)
    return Template(
        """long $name(long k) {
  long n = $much;
  if (k & 1) goto odd;
  even:
  if (n == $much + k) return n - $much;
  n++;
  odd:
  if (n == $much + k) goto even;
  n++;
  goto even;
}"""
    ).substitute(name=name, much=chance.randint(0, 999))


def through_recursion(chance: random.Random, name: str) -> str:
    """A depth of calls, with a block of the stack in each."""
    return Template(
        """${kept}long ${name}_odd(long k);
${kept}long $name(long k) {
  $type room[$count];
  if (k <= 0) return 0;
  room[k % $count] = ($type)k;
  touch(room);
  return ${name}_odd(k - 1) + (room[k % $count] == ($type)k);
}
long ${name}_odd(long k) { return k <= 0 ? 0 : 1 + $name(k - 1); }"""
    ).substitute(kept=KEPT, name=name, type=chance.choice(["char", "short", "long"]), count=chance.randint(1, 9))


def through_switch(chance: random.Random, name: str) -> str:
    """A switch with ranges, a case for each of some values, and a default."""
    low, high = sorted(chance.sample(range(1, 62), 2))
    type_ = chance.choice(["int", "unsigned char", "long", "short"])
    cases = " ".join(
        f"case {value}: k ^= {value}; k += {value}; break;" for value in chance.sample(range(low), min(low, 3))
    )
    return Template(
        """long $name(long k) {
  switch (($type)k) {
    $cases
    case $low ... $high: return k;
    default: touch(&k);
  }
  return k;
}"""
    ).substitute(name=name, type=type_, cases=cases, low=low, high=high)

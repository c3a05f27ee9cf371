"""Detours of addresses: C functions that return the pointer that they are given."""
from __future__ import annotations

import random
from string import Template

from . import floats, jumps

KEPT = "__attribute__((noinline)) "


def from_table(chance: random.Random, name: str) -> str:
    """A table of pointers on the stack, whose element is named by bits of an address."""
    count, alignment = chance.randint(2, 9), chance.choice([16, 32, 64])
    at = chance.randrange(min(count, alignment // 8))
    wished = chance.random() < 0.6
    if not wished:
        at = chance.randrange(count)
    return Template(
        """${kept}void ${name}_list(void **t, void *p) {
  for (int i = 0; i < $count; i++) t[i] = i == $at ? p : (void *)t;
}
void *$name(void *p) {
  long odd = $at;
  touch(&odd);
  $aligned void *t[$count];
  ${name}_list(t, p);
  uintptr_t u = (uintptr_t)t;
  return odd == $at ? *(void **)(u $sign $offset) : 0;
}"""
    ).substitute(
        kept=KEPT,
        name=name,
        count=count,
        at=at,
        aligned=f"_Alignas({alignment})" if wished else "",
        sign="|" if wished else "+",
        offset=8 * at,
    )


def by_arithmetic(chance: random.Random, name: str) -> str:
    """Sums, differences and masks of the address as a number."""
    mask, key = chance.choice([7, 15, 63, 4095]), chance.getrandbits(62)
    body = chance.choice(
        [
            f"return (void *)((u & ~(uintptr_t){mask}) | (u & {mask}));",
            f"return (void *)((u & -{mask + 1}) + u % {mask + 1});",
            f"u ^= {key}ull; touch(&u); return (void *)(u ^ {key}ull);",
            f"u = u * 3 + {mask}; touch(&u); return (void *)((u - {mask}) / 3);",
            f"u += {mask}; touch(&u); return (void *)(u - {mask});",
            "u = ~u; touch(&u); return (void *)~u;",
            "return (void *)(u << 13 >> 13);",
            f"return (char *)p - ((u & {mask}) - (u - u / {mask + 1} * {mask + 1}));",
        ]
    )
    return Template("void *$name(void *p) {\n  uintptr_t u = (uintptr_t)p;\n  touch(&u);\n  $body\n}").substitute(
        name=name, body=body
    )


def by_struct(chance: random.Random, name: str) -> str:
    """A struct that has the pointer among other fields, by value; or the address of a field of a struct around it."""
    before = " ".join(f'{chance.choice(["char", "int", "long", "short"])} m{i};' for i in range(chance.randint(0, 4)))
    return Template(
        """struct ${name}_s { $before void *p; $type last; };
${kept}struct ${name}_s ${name}_by(struct ${name}_s s, long n) {
  s.last = ($type)n;
  return n ? ${name}_by(s, n - 1) : s;
}
void *$name(void *p) {
  struct ${name}_s s;
  memset(&s, 90, sizeof s);
  s.p = p;
  void **field = &s.p;
  touch(&field);
  struct ${name}_s *around = (struct ${name}_s *)((char *)field - offsetof(struct ${name}_s, p));
  return ${name}_by(*around, $depth).p;
}"""
    ).substitute(
        kept=KEPT, name=name, before=before, type=chance.choice(["char", "long", "short"]), depth=chance.randrange(4)
    )


def by_union(chance: random.Random, name: str) -> str:
    """A union with the number and the bytes of the address."""
    return Template(
        """void *$name(void *p) {
  union { void *p; uintptr_t u; unsigned char b[8]; uint16_t h[4]; } one = {p}, two;
  touch(&one);
  for (int i = 0; i < 8; i++) two.b[i] = one.b[i];
  two.h[$at] = one.h[$at];
  touch(&two);
  return (void *)two.u;
}"""
    ).substitute(name=name, at=chance.randrange(4))


def by_parts(chance: random.Random, name: str) -> str:
    """Copies of parts of the pointer's bytes."""
    cut, at = chance.randint(1, 7), chance.randrange(9)
    return Template(
        """void *$name(void *p) {
  char room[24], again[24];
  memcpy(room + $at, &p, $cut);
  memcpy(room + $at + $cut, (char *)&p + $cut, 8 - $cut);
  touch(room);
  memmove(again + 8, room + $at, 8);
  memmove(again + $to, again + 8, 8);
  void *back;
  memcpy(&back, again + $to, sizeof back);
  return back;
}"""
    ).substitute(name=name, cut=cut, at=at, to=chance.randrange(16))


def by_varargs(chance: random.Random, name: str) -> str:
    """One of several variable arguments."""
    before = [chance.choice(["int", "long", "struct pair", "char *"]) for _ in range(chance.randint(0, 8))]
    given = {"int": "3", "long": "4L", "struct pair": "(struct pair){5, 6}", "char *": '(char *)"x"'}
    return Template(
        """${kept}void *${name}_v(int first, ...) {
  va_list a;
  va_start(a, first);
  $skip
  void *found = va_arg(a, void *);
  va_end(a);
  return found;
}
void *$name(void *p) { return ${name}_v($words); }"""
    ).substitute(
        kept=KEPT,
        name=name,
        skip=" ".join(f"(void)va_arg(a, {type_});" for type_ in before),
        words=", ".join(["1", *(given[type_] for type_ in before), "p", "7"]),
    )


def by_wide(chance: random.Random, name: str) -> str:
    """Two pointers in 128 bits."""
    return Template(
        """void *$name(void *p) {
  unsigned __int128 both = ((unsigned __int128)(uintptr_t)p << 64) | (uintptr_t)&p;
  touch(&both);
  both += $more;
  return (void *)(uintptr_t)((both - $more) >> 64);
}"""
    ).substitute(name=name, more=f"{chance.getrandbits(40)}ull")


def by_calls(chance: random.Random, name: str) -> str:
    """A call by pointer, from a struct of functions."""
    count = chance.randint(1, 4)
    functions = "\n".join(
        f"static uintptr_t {name}_{i}(uintptr_t u, long n) {{ return n ? u + {i} : u - n; }}" for i in range(count)
    )
    return Template(
        """$functions
static const struct { int number; uintptr_t (*call)(uintptr_t, long); } ${name}_table[] = { $rows };
void *$name(void *p) {
  long i = ((uintptr_t)p >> 3) % $count;
  return (void *)${name}_table[i].call(${name}_table[i].call((uintptr_t)p, 1) - i, 0);
}"""
    ).substitute(
        functions=functions, name=name, count=count, rows=", ".join(f"{{{i}, {name}_{i}}}" for i in range(count))
    )


def by_global(chance: random.Random, name: str) -> str:
    """Globals that hold the pointer, or the address of what holds it."""
    return Template(
        """static void *${name}_kept[$count];
static void **const ${name}_end = ${name}_kept + $count;
void *$name(void *p) {
  void ***way = (void ***)&(void **){${name}_end - $back};
  **way = p;
  touch(*way);
  return ${name}_kept[$count - $back];
}"""
    ).substitute(name=name, count=(count := chance.randint(1, 9)), back=chance.randint(1, count))


def by_loop(chance: random.Random, name: str) -> str:
    """Steps to the address from another one, by goto or by calls."""
    step = chance.choice([1, 2, 4, 8, 24])
    if chance.random() < 0.5:
        return Template(
            """void *$name(void *p) {
  uintptr_t u = (uintptr_t)p - $far;
  again:
  touch(&u);
  if (u == (uintptr_t)p) return (void *)u;
  u += $step;
  goto again;
}"""
        ).substitute(name=name, far=step * chance.randint(0, 9), step=step)
    return Template(
        """${kept}uintptr_t ${name}_by(uintptr_t u, long n) { return n ? ${name}_by(u + $step, n - 1) : u; }
void *$name(void *p) { return (void *)${name}_by((uintptr_t)p - $far * $step, $far); }"""
    ).substitute(kept=KEPT, name=name, step=step, far=chance.randint(0, 9))


DETOURS = [
    from_table,
    from_table,
    by_arithmetic,
    by_arithmetic,
    by_struct,
    by_union,
    by_parts,
    by_varargs,
    by_wide,
    by_calls,
    by_global,
    by_loop,
    *floats.POINTERS,
    *jumps.POINTERS,
]

"""Detours of numbers: C functions that return their argument, from 0 to 63, by way of addresses, structs, unions and other forms."""
from __future__ import annotations

import random
from string import Template

from . import floats, jumps
from .control_detours import through_goto, through_recursion, through_switch
from .library import through_heap, through_parts, through_sorting, through_text

INTEGERS = ["int", "unsigned", "long", "short", "unsigned char", "uint64_t", "int16_t"]
KEPT = "__attribute__((noinline)) "


def through_stack(chance: random.Random, name: str) -> str:
    """An element of a stack array, whose address takes the place of the index in `|`, `+` or `&`."""
    type_, size = chance.choice([("char", 1), ("short", 2), ("int", 4), ("long", 8)])
    alignment = chance.choice([16, 32, 64, 128])
    wished = chance.random() < 0.6
    count = chance.randint(16 // size, 160 // size)
    at = chance.randrange(min(count, alignment // size)) if wished else chance.randrange(count)
    address = {
        True: f"((uintptr_t)a | {at * size})",
        False: f"((uintptr_t)a + {at * size})",
    }[wished]
    if wished and chance.random() < 0.4:
        address = f"(((uintptr_t)(a + {chance.randrange(alignment // size if count * size >= alignment else 1)}) & -{alignment}) | {at * size})"
    declared = f"_Alignas({alignment}) {type_} a[{count}]" if wished else f"{type_} a[{count}]"
    return (
        Template(
            """${kept}void $name.fill($type *a, long k) { for (long i = 0; i < $count; i++) a[i] = ($type)(k ^ i); }
long $name(long k) {
  char before[${odd}];
  $declared;
  $name.fill(a, k);
  before[k % $odd] = 1;
  touch(before);
  return (*($type *)$address ^ $at) & 63;
}"""
        )
        .substitute(
            kept=KEPT,
            name=name,
            type=type_,
            count=count,
            odd=chance.choice([1, 3, 8, 9, 24]),
            declared=declared,
            address=address,
            at=at,
        )
        .replace(".fill", "_fill")
    )


def through_array(chance: random.Random, name: str) -> str:
    """The last element of an array of variable length, or of a block of `alloca`."""
    declared = chance.choice(["$type a[k + $more];", "$type *a = __builtin_alloca((k + $more) * sizeof *a);"])
    return Template(
        "long $name(long k) {\n  "
        + declared
        + """
  for (long i = 0; i < k + $more; i++) a[i] = ($type)(i + 1);
  touch(a + k);
  return a[k] - 1;
}"""
    ).substitute(name=name, type=chance.choice(["short", "int", "long"]), more=chance.randint(1, 5))


def through_arena(chance: random.Random, name: str) -> str:
    """A word in a buffer of characters, at an address that is rounded up."""
    alignment = chance.choice([8, 16, 32, 64])
    return Template(
        """long $name(long k) {
  char room[$size], other[$odd];
  touch(room), touch(other);
  long *p = (long *)(((uintptr_t)room + $less) & -$alignment);
  *p = k;
  long *q = (long *)(((uintptr_t)room + $less) & ~(uintptr_t)$less);
  touch(q);
  return *q;
}"""
    ).substitute(
        name=name,
        size=alignment + 8 + chance.randrange(40),
        odd=chance.choice([1, 5, 8, 16]),
        alignment=alignment,
        less=alignment - 1,
    )


def through_struct(chance: random.Random, name: str) -> str:
    """A field of a struct that is passed and returned by value."""
    types = [chance.choice(INTEGERS) for _ in range(chance.randint(1, 7))]
    if chance.random() < 0.3:
        types.append("unsigned __int128")
    chance.shuffle(types)
    at = chance.randrange(len(types))
    fields = " ".join(
        f'{type_} m{i}{f"[{chance.randint(1, 4)}]" if i != at and chance.random() < 0.3 else ""};'
        for i, type_ in enumerate(types)
    )
    packed = chance.choice(["", "", "__attribute__((packed)) "])
    return Template(
        """struct $packed${name}_s { $fields };
${kept}struct ${name}_s ${name}_by(struct ${name}_s s, long n, struct ${name}_s t) {
  t.m$at = s.m$at;
  return n > 0 ? ${name}_by(t, n - 1, s) : n & 1 ? s : t;
}
long $name(long k) {
  struct ${name}_s s, t;
  memset(&s, 0, sizeof s), memset(&t, 0, sizeof t);
  s.m$at = k;
  return (long)${name}_by(s, $depth, t).m$at;
}"""
    ).substitute(kept=KEPT, name=name, packed=packed, fields=fields, at=at, depth=chance.randrange(5))


def through_union(chance: random.Random, name: str) -> str:
    """A word whose bytes are written and read in other sizes."""
    type_, size = chance.choice([("uint8_t", 1), ("uint16_t", 2), ("uint32_t", 4)])
    at = chance.randrange(16 // size)
    word, shift = divmod(at * size, 8)
    return Template(
        """long $name(long k) {
  union { uint64_t w[2]; $type p[$count]; unsigned __int128 whole; } u;
  u.whole = ~(unsigned __int128)0;
  u.p[$at] = ($type)k;
  touch(&u);
  return (long)(u.w[$word] >> $shift & 63) + (long)(u.whole >> $all & 63) - (long)u.p[$at];
}"""
    ).substitute(name=name, type=type_, count=16 // size, at=at, word=word, shift=8 * shift, all=8 * at * size)


def through_bits(chance: random.Random, name: str) -> str:
    """A bit-field among others."""
    widths = [chance.randint(1, 33) for _ in range(chance.randint(2, 6))]
    at = chance.randrange(len(widths))
    widths[at] = chance.randint(7, 40)
    types = [
        chance.choice(["uint64_t", "int64_t"] if width > 31 else ["unsigned", "uint64_t", "int64_t"])
        for width in widths
    ]
    fields = " ".join(f"{type_} b{i} : {width};" for i, (type_, width) in enumerate(zip(types, widths)))
    fill = " ".join(f's->b{i} = {("k", "-1", "k * 3", "1")[i % 4]};' for i in range(len(widths)) if i != at)
    return Template(
        """struct $packed${name}_b { $fields };
${kept}void ${name}_fill(struct ${name}_b *s, long k) { s->b$at = k; $fill }
long $name(long k) {
  struct ${name}_b s;
  memset(&s, $byte, sizeof s);
  ${name}_fill(&s, k);
  s.b$at += 1;
  s.b$other ^= 1;
  s.b$at -= 1;
  return s.b$at;
}"""
    ).substitute(
        kept=KEPT,
        name=name,
        packed=chance.choice(["", "", "__attribute__((packed)) "]),
        fields=fields,
        at=at,
        fill=fill,
        byte=chance.choice([0, 255]),
        other=(at + 1) % len(widths),
    )


def through_varargs(chance: random.Random, name: str) -> str:
    """One of several variable arguments, among structs, wide numbers and texts."""
    given = {
        "int": "(int)-7",
        "long": "-9L",
        "char *": '(char *)"text"',
        "unsigned __int128": "(unsigned __int128)5 << 70",
        f"struct {name}_v": f"(struct {name}_v){{1, 2, 3}}",
        "struct pair": "(struct pair){4, 5}",
    }
    kinds = [chance.choice(list(given)) for _ in range(chance.randint(0, 9))]
    at = chance.randint(0, len(kinds))
    kinds.insert(at, "wanted")
    type_ = chance.choice(["int", "long", "unsigned", "struct pair"])
    value = {"struct pair": "(struct pair){k + 1, k}"}.get(type_, f"({type_})k")
    taken = "va_arg(a, struct pair).second" if type_ == "struct pair" else f"va_arg(a, {type_})"
    before = " ".join(f"(void)va_arg(a, {kind});" for kind in kinds[:at])
    words = ", ".join(value if kind == "wanted" else given[kind] for kind in kinds)
    return Template(
        """struct ${name}_v { long a; int b; $extra c; };
${kept}long ${name}_v(long first, ...) {
  va_list all, a;
  va_start(all, first);
  va_copy(a, all);
  $before
  long found = $taken;
  va_end(a), va_end(all);
  return found;
}
long $name(long k) { return ${name}_v($fixed, $words); }"""
    ).substitute(
        kept=KEPT,
        name=name,
        extra=chance.choice(["char", "long", "short"]),
        before=before,
        taken=taken,
        fixed=chance.randint(-9, 9),
        words=words,
    )


def through_calls(chance: random.Random, name: str) -> str:
    """A call by pointer, from a table, of one of several functions."""
    count, back = chance.randint(2, 6), chance.randint(1, 99)
    functions = "\n".join(
        f"static long {name}_{i}(long k, char c) {{ return k + {i * back} + c; }}" for i in range(count)
    )
    return Template(
        """$functions
static long (*const ${name}_table[])(long, char) = { $names };
long $name(long k) {
  long (*call)(long, char) = ${name}_table[(k + $some) % $count];
  touch(&call);
  return call(k, 1) - (k + $some) % $count * $back - 1;
}"""
    ).substitute(
        functions=functions,
        name=name,
        names=", ".join(f"{name}_{i}" for i in range(count)),
        some=chance.randrange(20),
        count=count,
        back=back,
    )


def through_wide(chance: random.Random, name: str) -> str:
    """128 bits: shifts, products, quotients and comparisons."""
    shift, factor = chance.randint(1, 120), chance.randint(3, 1 << 60)
    body = chance.choice(
        [
            f"wide = (wide << {shift}) >> {shift}; return (long)wide;",
            f"wide = wide * {factor}ull + {chance.randrange(factor)}ull; return (long)(wide / {factor}ull);",
            f"wide += (unsigned __int128){factor}ull << 64; return (long)((wide ^ (unsigned __int128){factor}ull << 64) & 63);",
            f"__int128 low = -(__int128){factor}ll; return low < (__int128)wide ? (long)((low + (__int128)wide) - low) : -1;",
        ]
    )
    return Template(
        """long $name(long k) {
  unsigned __int128 wide = (unsigned long)k;
  touch(&wide);
  $body
}"""
    ).substitute(name=name, body=body)


DETOURS = [
    through_stack,
    through_stack,
    through_array,
    through_arena,
    through_struct,
    through_union,
    through_bits,
    through_varargs,
    through_calls,
    through_parts,
    through_text,
    through_wide,
    through_goto,
    through_recursion,
    through_switch,
    through_heap,
    through_sorting,
    *floats.NUMBERS,
    *jumps.NUMBERS,
]

"""Detours of numbers and addresses by floating-point numbers. Each computation that the argument takes is exact, so it comes back.

Beside them, computations that round go into `rounded`, bit by bit, which each program prints."""
from __future__ import annotations

import random
from string import Template

KEPT = "__attribute__((noinline)) "


def through_conversions(chance: random.Random, name: str) -> str:
    """A product and a sum, and conversions of integers of each width."""
    type_ = chance.choice(["float", "double"])
    back = chance.choice(["int", "unsigned", "long", "short", "unsigned char", "uint64_t", "uint16_t", "signed char"])
    factor, more = chance.choice([0.25, 0.5, 1.5, 2, 3, 5, 96, 640]), chance.choice([-1000, -7.5, 0, 0.25, 12, 4095])
    return Template(
        """long $name(long k) {
  $type x = ($type)($from)k;
  touch(&x);
  x = x * $factor$end + $more$end;
  touch(&x);
  return (long)($back)((x - $more$end) / $factor$end);
}"""
    ).substitute(
        name=name,
        type=type_,
        back=back,
        factor=float(factor),
        more=float(more),
        end="f" if type_ == "float" else "",
        **{"from": chance.choice(["int", "unsigned", "long", "short", "uint64_t", "unsigned char"])},
    )


def through_rounding(chance: random.Random, name: str) -> str:
    """Computations that round, whose bits are noted: quotients, products, sums, and conversions between widths."""
    type_ = chance.choice(["float", "double"])
    first, second = (f"{chance.uniform(0.1, 9) * 10 ** chance.randint(-30, 30):.16e}" for _ in range(2))
    steps = [
        chance.choice(
            [
                f"x = x / {chance.randint(3, 99)}.0{end};",
                f"x = x * {first}{end};",
                f"x = x + {second}{end};",
                f"x = {second}{end} - x;",
                "x = (float)x;",
                "x = -x;",
                f"x = (x > {second}{end} ? x : {first}{end});",
                f"x += ({type_})(({kind})((k + 1) * {chance.getrandbits(57)}ull));",
                "x = sqrt(x < 0 ? -x : x);",
                "x = fabs(x);",
            ]
        )
        for end in ["f" if type_ == "float" else ""]
        for kind in ["long", "uint64_t", "int", "unsigned"]
        for _ in range(chance.randint(1, 2))
    ]
    chance.shuffle(steps)
    lines = "\n  ".join(line for step in steps for line in (step, "note_float(x);"))
    return f"long {name}(long k) {{\n  {type_} x = ({type_})(k - {chance.randrange(64)});\n  touch(&x);\n  {lines}\n  return k;\n}}"


def through_float_bits(chance: random.Random, name: str) -> str:
    """The exponent of a power of two, by a union or a copy of the bytes."""
    type_, whole, first, bias = chance.choice([("double", "uint64_t", 52, 1023), ("float", "uint32_t", 23, 127)])
    read = chance.choice(
        [f"union {{ {type_} x; {whole} n; }} u = {{x}}; touch(&u); n = u.n;", "memcpy(&n, &x, sizeof n);"]
    )
    return Template(
        """long $name(long k) {
  $type x = 1;
  for (long i = 0; i < k; i++) x *= 2;
  $whole n;
  $read
  return (long)(n >> $first) - $bias;
}"""
    ).substitute(name=name, type=type_, whole=whole, read=read, first=first, bias=bias)


def through_float_struct(chance: random.Random, name: str) -> str:
    """A field of a struct with floating-point numbers that is passed and returned by value, and a parameter after it."""
    types = [chance.choice(["float", "double", "float", "int", "long", "char"]) for _ in range(chance.randint(1, 5))]
    at = chance.randrange(len(types))
    fields = " ".join(
        f'{type_} m{i}{f"[{chance.randint(1, 3)}]" if i != at and chance.random() < 0.2 else ""};'
        for i, type_ in enumerate(types)
    )
    more = ", ".join(f"double d{i}" for i in range(chance.randint(1, 9)))
    return Template(
        """struct ${name}_s { $fields };
${kept}struct ${name}_s ${name}_by(struct ${name}_s s, $more, long n, struct ${name}_s t, float last) {
  t.m$at = s.m$at;
  if (last != 0.5f || d0 != 1.25) t.m$at = 99;
  return n > 0 ? ${name}_by(t, $ones, n - 1, s, last) : t;
}
long $name(long k) {
  struct ${name}_s s, t;
  memset(&s, 0, sizeof s), memset(&t, 0, sizeof t);
  s.m$at = k;
  return (long)${name}_by(s, $ones, $depth, t, 0.5f).m$at;
}"""
    ).substitute(
        kept=KEPT,
        name=name,
        fields=fields,
        at=at,
        more=more,
        ones=", ".join(["1.25"] * (more.count(",") + 1)),
        depth=chance.randrange(4),
    )


def through_float_varargs(chance: random.Random, name: str) -> str:
    """One of several variable arguments, among numbers of both kinds and structs of them; more than eight go on the stack."""
    given = {
        "int": "-7",
        "long": "-9L",
        "double": "2.5",
        "struct both": "(struct both){1.5, 3}",
        "struct two": "(struct two){1, 2, 3}",
        "struct pair": "(struct pair){4, 5}",
    }
    kinds = [chance.choice([*given, "double", "double"]) for _ in range(chance.randint(0, 12))]
    at = chance.randint(0, len(kinds))
    taken, value = chance.choice(
        [
            ("(long)va_arg(a, double)", "(double)k"),
            ("(long)va_arg(a, double)", "(float)k"),
            ("va_arg(a, long)", "k"),
            ("(long)va_arg(a, struct both).x", "(struct both){k, 1}"),
            ("(long)va_arg(a, struct two).y", "(struct two){1, k, 2}"),
        ]
    )
    before = " ".join(f"(void)va_arg(a, {kind});" for kind in kinds[:at])
    words = ", ".join([*(given[kind] for kind in kinds[:at]), value, *(given[kind] for kind in kinds[at:])])
    return Template(
        """${kept}long ${name}_v($type first, ...) {
  va_list a;
  va_start(a, first);
  $before
  long found = $taken;
  va_end(a);
  return found;
}
long $name(long k) { return ${name}_v(1, $words); }"""
    ).substitute(kept=KEPT, name=name, type=chance.choice(["double", "long"]), before=before, taken=taken, words=words)


def through_float_text(chance: random.Random, name: str) -> str:
    """The digits of a number, which are read again."""
    form = chance.choice(["%.3f", "%g", "%e", "%a", "%+.1f", "%012.4f", "%.17g", "%-12.2e|"])
    read = chance.choice(
        [
            "(long)strtod(room, 0)",
            "(long)atof(room)",
            "(long)strtof(room, 0)",
            'sscanf(room, "%lf", &back) == 1 ? (long)back : -1',
        ]
    )
    return Template(
        """long $name(long k) {
  char room[64];
  double back = 0;
  snprintf(room, sizeof room, "$form", (double)k);
  touch(room), touch(&back);
  return $read;
}"""
    ).substitute(name=name, form=form, read=read)


def through_math(chance: random.Random, name: str) -> str:
    """Functions of `<math.h>` whose results are exact."""
    body = chance.choice(
        [
            "return (long)sqrt((double)(k * k));",
            "return (long)floor((double)k + 0.75);",
            "return (long)ceil((double)k - 0.25);",
            "return lrint((double)k + 0.25);",
            "return (long)fmod((double)k + 640, 64);",
            "int e; double m = frexp((double)(k + 1), &e); return (long)ldexp(m, e) - 1;",
            "double whole; (void)modf((double)k + 0.5, &whole); return (long)whole;",
            "return (long)trunc(fabs(-(double)k - 0.5));",
            "return (long)fmax((double)k, fmin(-1, (double)k));",
            "return (long)copysign((double)k, 1) + (signbit(-(double)k - 1) ? 0 : 1);",
            "return (long)sqrtf((float)(k * k));",
            "return (long)round((double)k - 0.25);",
            "return (long)fma((double)k, 3, (double)-k) / 2;",
        ]
    )
    return f"long {name}(long k) {{\n  touch(&k);\n  {body}\n}}"


def through_float_loop(chance: random.Random, name: str) -> str:
    """Steps of a quarter up to a number, among numbers that compare in no order."""
    return Template(
        """long $name(long k) {
  volatile $type nothing = 0;
  $type none = nothing / nothing, step = $step;
  long n = 0;
  for ($type x = -nothing; x < ($type)k; x += step) n += (x < none) + !(x == none) + (none > x);
  return (long)(n * $step) + (none == none) + (isnan((double)none) != 0) - 1;
}"""
    ).substitute(name=name, type=chance.choice(["float", "double"]), step=chance.choice(["0.25", "0.5", "0.125"]))


def through_float_array(chance: random.Random, name: str) -> str:
    """A sum of the elements of an array on the stack."""
    type_, count = chance.choice(["float", "double"]), chance.randint(2, 19)
    return Template(
        """${kept}void ${name}_fill($type *a, $type x) { for (int i = 0; i < $count; i++) a[i] = i == $at ? x : ($type)(i - $half); }
long $name(long k) {
  $type a[$count], all = 0;
  ${name}_fill(a, ($type)k);
  touch(a + $at);
  for (int i = 0; i < $count; i++) all += a[i];
  return (long)(all - $others);
}"""
    ).substitute(
        kept=KEPT,
        name=name,
        type=type_,
        count=count,
        at=(at := chance.randrange(count)),
        half=count // 2,
        others=float(sum(i - count // 2 for i in range(count) if i != at)),
    )


def by_double(chance: random.Random, name: str) -> str:
    """An address as a number of 53 bits: halves, sums and products that are exact."""
    body = chance.choice(
        [
            "double x = (double)u; touch(&x); return (void *)(uintptr_t)x;",
            f"double x = (double)(long)u * {chance.choice([2.0, 0.5, 4.0])}; touch(&x); return (void *)(uintptr_t)(x + x) == p ? p : (void *)u;",
            "float high = (float)(u >> 40); double low = (double)(u & 0xffffffffffull); touch(&high), touch(&low); "
            "return (void *)(((uintptr_t)high << 40) + (uintptr_t)low);",
            f"double x = (double)u - {chance.getrandbits(20)}.0; touch(&x); return (void *)(uintptr_t)(x + ((double)u - x));",
            "double x; memcpy(&x, &p, sizeof x); touch(&x); void *back; memcpy(&back, &x, sizeof back); return back;",
        ]
    )
    return f"void *{name}(void *p) {{\n  uintptr_t u = (uintptr_t)p;\n  touch(&u);\n  {body}\n}}"


NUMBERS = [
    through_conversions,
    through_rounding,
    through_float_bits,
    through_float_struct,
    through_float_varargs,
    through_float_text,
    through_math,
    through_float_loop,
    through_float_array,
]
POINTERS = [by_double]

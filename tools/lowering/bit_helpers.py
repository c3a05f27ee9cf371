"""Functions that are added to a program in place of LLVM's intrinsics on bits, each once."""
from string import Template

ROTATE = Template(
    """\
define $type $name($type %high, $type %low, $type %amount) {
entry:
  %left = urem $type %amount, $bits
  %none = icmp eq $type %left, 0
  br i1 %none, label %same, label %shifted
same:
  ret $type $kept
shifted:
  %right = sub $type $bits, %left
  %first = $towards $type $kept, %left
  %second = $away $type $other, %right
  %both = or $type %first, %second
  ret $type %both
}"""
)

# The head of a function whose loop counts from 0; `%left` is the rest of the number in each turn.
OVER_BITS = """\
define $type $name($type %value) {
entry:
  br label %loop
loop:
  %i = phi $type [ 0, %entry ], [ %next, %$turn ]
  %left = phi $type [ %value, %entry ], [ %rest, %$turn ]
"""

GATHER = Template(
    OVER_BITS
    + """\
  %sum = phi $type [ 0, %entry ], [ %result, %loop ]
  %part = and $type %left, $mask
$combine
  %rest = lshr $type %left, $step
  %next = add $type %i, $step
  %more = icmp ult $type %next, $bits
  br i1 %more, label %loop, label %done
done:
  ret $type %result
}"""
)

SEARCH = Template(
    OVER_BITS
    + """\
$test
  br i1 %found, label %done, label %more
more:
  %rest = $shift $type %left, 1
  %next = add $type %i, 1
  %inside = icmp ult $type %next, $bits
  br i1 %inside, label %loop, label %none
done:
  ret $type %i
none:
  ret $type $bits
}"""
)

HIGH_PRODUCT = Template(
    """\
define i64 $name(i64 %first, i64 %second) {
entry:
  %first.low = and i64 %first, 4294967295
  %first.high = lshr i64 %first, 32
  %second.low = and i64 %second, 4294967295
  %second.high = lshr i64 %second, 32
  %low = mul i64 %first.low, %second.low
  %carry = lshr i64 %low, 32
  %one = mul i64 %first.high, %second.low
  %middle = add i64 %one, %carry
  %middle.low = and i64 %middle, 4294967295
  %middle.high = lshr i64 %middle, 32
  %other = mul i64 %first.low, %second.high
  %both = add i64 %other, %middle.low
  %both.high = lshr i64 %both, 32
  %high = mul i64 %first.high, %second.high
  %sum = add i64 %high, %middle.high
  %result = add i64 %sum, %both.high
  ret i64 %result
}"""
)

# One half of a number of 128 bits that is shifted: `far` where the amount is 64 or more, else `near` of both halves.
SHIFT = Template(
    """\
define i64 $name(i64 %low, i64 %high, i64 %amount) {
entry:
  %wide = and i64 %amount, 64
  %left = and i64 %amount, 63
  %is.near = icmp eq i64 %wide, 0
  br i1 %is.near, label %near, label %far
near:
${near}\
far:
${far}\
}"""
)

# The bits of one half, with those that come in from the other half if the amount is not 0.
CARRIED = """\
  %none = icmp eq i64 %left, 0
  br i1 %none, label %same, label %moved
same:
  ret i64 {kept}
moved:
  %right = sub i64 64, %left
  %first = {towards} i64 {kept}, %left
  %second = {away} i64 {other}, %right
  %both = or i64 %first, %second
  ret i64 %both
"""


def high_product_helper(name: str) -> str:
    """The upper 64 bits of a product of two numbers without signs."""
    return HIGH_PRODUCT.substitute(name=name)


def shift_helper(name: str, word: str, part: str) -> str:
    """The low or the high half of a number of 128 bits, shifted by less than 128."""
    near_edge, far_edge = ("low", "high") if word == "shl" else ("high", "low")
    plain = f"  %moved.NAME = {word} i64 %{near_edge}, %left\n  ret i64 %moved.NAME\n"
    if part == near_edge:
        far = "  %sign = ashr i64 %high, 63\n  ret i64 %sign\n" if word == "ashr" else "  ret i64 0\n"
        return SHIFT.substitute(name=name, near=plain.replace("NAME", "near"), far=far)
    towards, away = ("shl", "lshr") if word == "shl" else ("lshr", "shl")
    near = CARRIED.format(kept=f"%{far_edge}", other=f"%{near_edge}", towards=towards, away=away)
    return SHIFT.substitute(name=name, near=near, far=plain.replace("NAME", "far"))


def bits_helper(name: str, kind: str, bits: int) -> str:
    """The intrinsics on the bits of one number, and the two funnel shifts."""
    if kind.startswith("fsh") and bits not in (8, 16, 32, 64):
        return funnel_helper(name, kind, bits)
    names = {"name": name, "type": f"i{bits}", "bits": bits, "turn": "more" if kind in ("cttz", "ctlz") else "loop"}
    if kind == "fshl":
        return ROTATE.substitute(names, kept="%high", other="%low", towards="shl", away="lshr")
    if kind == "fshr":
        return ROTATE.substitute(names, kept="%low", other="%high", towards="lshr", away="shl")
    if kind == "ctpop":
        return GATHER.substitute(names, mask=1, step=1, combine=f"  %result = add i{bits} %sum, %part")
    if kind == "bswap":
        combine = f"  %moved = shl i{bits} %sum, 8\n  %result = or i{bits} %moved, %part"
        return GATHER.substitute(names, mask=255, step=8, combine=combine)
    if kind == "bitreverse":
        combine = f"  %moved = shl i{bits} %sum, 1\n  %result = or i{bits} %moved, %part"
        return GATHER.substitute(names, mask=1, step=1, combine=combine)
    if kind == "cttz":
        test = f"  %bit = and i{bits} %left, 1\n  %found = icmp ne i{bits} %bit, 0"
        return SEARCH.substitute(names, test=test, shift="lshr")
    return SEARCH.substitute(names, test=f"  %found = icmp slt i{bits} %left, 0", shift="shl")


def funnel_helper(name: str, kind: str, bits: int) -> str:
    """A funnel shift of a width that the subset does not have, in the next one that it has."""
    held = f"i{max(8, 1 << (bits - 1).bit_length())}"
    names = {"name": name, "type": held, "bits": bits}
    if kind == "fshl":
        text = ROTATE.substitute(names, kept="%high", other="%low", towards="shl", away="lshr")
    else:
        text = ROTATE.substitute(names, kept="%low", other="%high", towards="lshr", away="shl")
    both = f"  %both = or {held} %first, %second\n"
    return text.replace(
        both + f"  ret {held} %both", f"{both}  %cut = and {held} %both, {(1 << bits) - 1}\n  ret {held} %cut"
    )

"""Numbers of the command line and of input files, each with its limits."""
import argparse
import math
import re
from collections.abc import Callable

from .trouble import Trouble

MOST_TURNS = 1 << 40
# hippo's own limit of turns, where none is given.
DEFAULT_TURNS = 1_000_000_000
WHOLE = re.compile(r"[+-]?[0-9]{1,30}")


def from_to(least: int, most: int | None = None) -> Callable[[str], int]:
    """The reader of an option that takes a whole number within limits."""
    limits = f"from {least:,}" + ("" if most is None else f" to {most:,}")

    def read(text: str) -> int:
        if not WHOLE.fullmatch(text) or int(text) < least or most is not None and int(text) > most:
            raise argparse.ArgumentTypeError(f"{text!r} is not a number {limits}")
        return int(text)

    return read


def seconds(text: str) -> float:
    """A time that an option takes."""
    try:
        number = float(text)
    except ValueError:
        number = math.nan
    if not 0 < number < math.inf:
        raise argparse.ArgumentTypeError(f"{text!r} is not a number of seconds")
    return number


def numbers_in(text: str, where: str) -> list[int]:
    """The numbers of an input, between blanks."""
    words = text.split()
    for word in words:
        if not re.fullmatch(r"[+-]?[0-9]+", word):
            raise Trouble(f"{where}: {word!r} is not a number")
    return [number_of(word) for word in words]


def number_of(word: str) -> int:
    """A number of 64 bits with its sign."""
    if not WHOLE.fullmatch(word) or not -(2**63) <= int(word) < 2**63:
        raise Trouble(f'the input {word[:30]}{"..." if len(word) > 30 else ""} has more than 64 bits')
    return int(word)

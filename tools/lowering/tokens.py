"""Tokens of LLVM's text form."""
from __future__ import annotations

import re

from .refusals import Refused

TOKEN = re.compile(
    r"""
    (?P<space>\s+|;[^\n]*)
  | (?P<bytes>c"[^"]*")
  | (?P<name>[%@$](?:"[^"]*"|[-A-Za-z$._0-9]+))
  | (?P<metadata>![-A-Za-z$._0-9]*)
  | (?P<string>"[^"]*")
  | (?P<float>-?[0-9]+\.[0-9]*(?:e[-+][0-9]+)?(?![-A-Za-z$._0-9])|0x[HRKL]?[0-9A-F]+(?![-A-Za-z$._0-9]))
  | (?P<number>-?[0-9]+(?![-A-Za-z$._0-9]))
  | (?P<word>[A-Za-z$._0-9][-A-Za-z$._0-9]*)
  | (?P<attributes>\#[0-9]+)
  | (?P<mark>[=,(){}\[\]<>*|:])
  | (?P<odd>.)
""",
    re.X | re.S,
)

# Attributes of parameters, results and calls that describe a program and do not change what it does.
PLAIN_ATTRIBUTES = set(
    """noundef nonnull nocapture readonly writeonly readnone returned noalias signext zeroext immarg
    nofree noext dead_on_unwind writable nounwind willreturn allocptr allocalign inreg swiftself nest""".split()
)
ATTRIBUTES_WITH_ARGUMENTS = set(
    """dereferenceable dereferenceable_or_null range sret align initializes captures memory
    allocsize elementtype nofpclass""".split()
)
FAST_MATH = set("fast nnan ninf nsz arcp contract afn reassoc".split())
LINKAGE = set(
    """private internal dso_local dso_preemptable hidden protected default linkonce linkonce_odr weak weak_odr
    common available_externally unnamed_addr local_unnamed_addr fastcc ccc coldcc tailcc""".split()
)


class Tokens:
    """The tokens of a text, one after another."""

    def __init__(self, text: str) -> None:
        found = ((match.lastgroup or "odd", match.group()) for match in TOKEN.finditer(text))
        self.tokens = [token for token in found if token[0] != "space"]
        self.place = 0

    def peek(self, ahead: int = 0) -> str:
        """The token that stands next, or one further ahead; an empty text if there is none."""
        place = self.place + ahead
        return self.tokens[place][1] if place < len(self.tokens) else ""

    def kind(self) -> str:
        """The kind of the token that stands next."""
        return self.tokens[self.place][0] if self.place < len(self.tokens) else "end"

    def take(self, expected: str | None = None) -> str:
        """Takes the next token, which must be the expected one if one is given."""
        text = self.peek()
        if expected is not None and text != expected:
            raise Refused(f"{expected!r} was expected where {text!r} stands")
        if not text:
            raise Refused("the text ends too early")
        self.place += 1
        return text

    def take_if(self, *words: str) -> str:
        """Takes one of the words if it is next, otherwise nothing."""
        return self.take() if self.peek() in words else ""

    def take_all(self, words: set[str]) -> list[str]:
        """All of the words that stand next."""
        taken = []
        while self.peek() in words:
            taken.append(self.take())
        return taken

    def skip_parentheses(self) -> None:
        """Goes to the token after the parenthesis that closes the one that stands next."""
        depth = 0
        while True:
            text = self.take()
            depth += (text == "(") - (text == ")")
            if depth == 0:
                return

    def skip_attributes(self) -> tuple[int, Tokens | None]:
        """Skips the attributes of a parameter, a result or a call. Returns the alignment that they give, or 1, and the tokens of the
        type of an aggregate that is passed by value, if there is one."""
        alignment, by_value = 1, None
        while True:
            text = self.peek()
            if self.kind() == "attributes" or text in PLAIN_ATTRIBUTES:
                self.take()
            elif text == "byval":
                self.take()
                by_value = Tokens("")
                by_value.tokens, by_value.place = self.tokens, self.place + 1
                self.skip_parentheses()
            elif text in ATTRIBUTES_WITH_ARGUMENTS:
                alignment = self.skip_argument() or alignment
            elif self.kind() == "string":
                self.take()
                if self.take_if("="):
                    self.take()
            else:
                return alignment, by_value

    def skip_argument(self) -> int:
        """Skips an attribute with its argument, and returns the number that it is, or 0."""
        self.take()
        if self.kind() == "number":
            return int(self.take())
        self.skip_parentheses()
        return 0

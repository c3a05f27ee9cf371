"""Lines of C and C++ with marks for comments, texts, numbers, words of the language and directives, as HTML."""
from __future__ import annotations

import html
import re
from collections.abc import Iterator

from .letters import shown

WORDS = (
    "alignas alignof asm auto bool break case catch char class concept const consteval constexpr constinit const_cast continue "
    "co_await co_return co_yield decltype default delete do double dynamic_cast else enum explicit extern false final float for "
    "friend goto if inline int long mutable namespace new noexcept nullptr operator override private protected public register "
    "reinterpret_cast requires restrict return short signed sizeof static static_assert static_cast struct switch template this "
    "thread_local throw true try typedef typeid typename union unsigned using virtual void volatile wchar_t while "
    "_Alignas _Alignof _Atomic _Bool _Generic _Noreturn _Static_assert _Thread_local "
    "int8_t int16_t int32_t int64_t uint8_t uint16_t uint32_t uint64_t size_t ssize_t ptrdiff_t intptr_t uintptr_t"
)
TOKEN = re.compile(
    r"""
    (?P<comment> //(?:[^\\\n]|\\.)* | /\*.*?(?:\*/|\Z) )
    | (?P<text> "(?:[^"\\\n]|\\.)*" | (?<![0-9a-fA-F])'(?:[^'\\\n]|\\.)*' )
    | (?P<directive> ^[ \t]*\#[ \t]*\w+ )
    | (?P<number> \b(?:0[xX][0-9a-fA-F']+|[0-9][0-9'.]*(?:[eEpP][-+]?[0-9]+)?)\w* )
    | (?P<word> \b(?:%s)\b )
    """
    % "|".join(WORDS.split()),
    re.S | re.M | re.X,
)
CLASSES = {"comment": "c", "text": "t", "directive": "p", "number": "n", "word": "w"}


def lines_in_html(lines: list[str]) -> list[str]:
    """The lines of a file, each as HTML."""
    found = [""] * len(lines)
    for number, piece, kind in pieces("\n".join(lines)):
        text = html.escape(shown(piece))
        found[number] += f'<span class="{kind}">{text}</span>' if kind else text
    return found


def pieces(source: str) -> Iterator[tuple[int, str, str]]:
    """The pieces of a source within its lines: the number of the line from 0, the text, and the class or nothing."""
    line, place = 0, 0
    for token in TOKEN.finditer(source):
        for kind, text in ((None, source[place : token.start()]), (token.lastgroup, token[0])):
            for number, part in enumerate(text.split("\n")):
                line += number > 0
                if part:
                    yield line, part, CLASSES[kind] if kind else ""
        place = token.end()
    for number, part in enumerate(source[place:].split("\n")):
        line += number > 0
        if part:
            yield line, part, ""

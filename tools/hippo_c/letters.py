"""Texts of other files as a terminal, a CI's log and a page may show them: letters that control these are escaped, as clang writes them."""
import re

# Control characters, separators of lines, and those that change the direction of a text. A tab is kept in lines of C.
CONTROLS = re.compile("[\x00-\x08\x0a-\x1f\x7f-\x9f\u061c\u200e\u200f\u2028-\u202e\u2066-\u2069]")
# Workflow commands that a CI takes anywhere in a line.
COMMANDS = re.compile(r"##(?=\[|vso\[)")


def shown(text: str) -> str:
    """A text with `<U+001B>` in place of each control character, on one line."""
    found = CONTROLS.sub(lambda letter: f"<U+{ord(letter[0]):04X}>", text)
    return COMMANDS.sub("#<U+0023>", found)


def shown_line(text: str) -> str:
    """A line to print. A line that begins with `::` is a command in the log of a workflow, so the name of a file before it is `./::`."""
    line = shown(text)
    return f"./{line}" if line.lstrip().startswith("::") else line

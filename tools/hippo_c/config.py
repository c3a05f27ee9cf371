"""hippo.toml: the files and the options of a project, so that `hippo-c check` needs no words.

It is found upward from the current folder, and is read where the command line names no file. The table `[hippo]` holds for each command,
a table with the name of a command for that one alone. Its paths are relative to its folder."""
from __future__ import annotations

import argparse
import importlib
import os
import re
from collections.abc import Iterator
from typing import Any

from .trouble import Trouble

NAME = "hippo.toml"
COMMON = "hippo"
# Keys that are no options: what stands without an option, after --args and after --.
SOURCES, ARGUMENTS, CLANG = "sources", "args", "clang"
# Options that name files or folders.
PATHS = {
    "compile-commands",
    "input-file",
    "inputs",
    "baseline",
    "write-baseline",
    "corpus",
    "json",
    "sarif",
    "html",
    "diff",
    "keep",
    "debug",
    "depfile",
    "o",
    "p",
    "I",
}
# Arguments of clang that name a file or a folder, in the same word or in the next one.
CLANG_PATHS = ("-I", "-L", "-isystem", "-iquote", "-idirafter", "-include")


class Config:
    """A file hippo.toml."""

    def __init__(self, path: str) -> None:
        self.path = path
        self.folder = os.path.dirname(path)
        self.tables, self.text = read(path)

    def words(
        self, command: str, parsers: dict[str, argparse.ArgumentParser]
    ) -> tuple[list[str], list[str], list[str]]:
        """The words of a command: its files and options, the arguments of the program, and those of clang."""
        for name in self.tables:
            if name not in (COMMON, *parsers):
                raise self.trouble("", name, f"neither [{COMMON}] nor the table of a command")
        known, of_any = options_of(parsers[command]), set().union(*map(options_of, parsers.values()))
        sources: list[str] = []
        words: list[str] = []
        arguments: list[str] = []
        clang: list[str] = []
        for table in (COMMON, command):
            for key, value in self.table(table).items():
                if key == SOURCES:
                    sources += [self.relative(path) for path in self.texts(table, key, value)]
                elif key == ARGUMENTS:
                    arguments += self.texts(table, key, value)
                elif key == CLANG:
                    clang += self.clang_words(self.texts(table, key, value))
                elif key in known:
                    words += list(self.option(table, key, value, known[key]))
                elif table != COMMON or key not in of_any:
                    raise self.trouble(table, key, "no such option")
        return sources + words, arguments, clang

    def table(self, name: str) -> dict[str, Any]:
        """A table, which may be missing."""
        found = self.tables.get(name, {})
        if not isinstance(found, dict):
            raise self.trouble("", name, "not a table")
        return found

    def option(self, table: str, key: str, value: Any, action: argparse.Action) -> Iterator[str]:
        """The words of an option."""
        name = f"-{key}" if len(key) == 1 else f"--{key}"
        if action.nargs == 0:
            if not isinstance(value, bool):
                raise self.trouble(table, key, "neither true nor false")
            yield from [name] * value
            return
        values = [self.relative(text) if key in PATHS else text for text in self.texts(table, key, value)]
        if action.nargs in ("*", "+"):
            yield name
            yield from values
            return
        if isinstance(value, list) and not isinstance(action, argparse._AppendAction):
            raise self.trouble(table, key, "one value, not a list")
        yield from (f"{name}={text}" if len(key) > 1 else f"{name}{text}" for text in values)

    def texts(self, table: str, key: str, value: Any) -> list[str]:
        """A text, a number or a list of them."""
        values = value if isinstance(value, list) else [value]
        if any(isinstance(one, bool) or not isinstance(one, (str, int)) for one in values):
            raise self.trouble(table, key, "neither a text nor a number nor a list of them")
        return [str(one) for one in values]

    def relative(self, path: str) -> str:
        """A path of the file, from the current folder."""
        return path if os.path.isabs(path) or path == "-" else os.path.relpath(os.path.join(self.folder, path))

    def clang_words(self, words: list[str]) -> list[str]:
        """Arguments for clang, with their paths from the current folder."""
        found: list[str] = []
        for word in words:
            option = next((option for option in CLANG_PATHS if word.startswith(option)), "")
            if found and found[-1] in CLANG_PATHS:
                found.append(self.relative(word))
            elif option and word != option:
                found.append(option + self.relative(word[len(option) :].lstrip()))
            else:
                found.append(word)
        return found

    def trouble(self, table: str, key: str, what: str) -> Trouble:
        """A refusal with the line of a key."""
        inside = table == ""
        for number, line in enumerate(self.text.split("\n"), 1):
            if heading := re.match(r'\s*\[\s*"?([\w-]+)"?\s*\]', line):
                inside = heading[1] == table or table == ""
                if table == "" and heading[1] == key:
                    return Trouble(f"{os.path.relpath(self.path)}:{number}: [{key}]: {what}")
            if inside and re.match(rf'\s*"?{re.escape(key)}"?\s*=', line):
                return Trouble(f"{os.path.relpath(self.path)}:{number}: {key}: {what}")
        return Trouble(f"{os.path.relpath(self.path)}: {key}: {what}")


def find() -> str | None:
    """The path of the hippo.toml of the current folder or of the nearest one around it."""
    folder = os.getcwd()
    while True:
        path = os.path.join(folder, NAME)
        if os.path.isfile(path):
            return path
        above = os.path.dirname(folder)
        if above == folder:
            return None
        folder = above


def read(path: str) -> tuple[dict[str, Any], str]:
    """The tables of a file, and its text."""
    try:
        tomllib = importlib.import_module("tomllib")
    except ImportError:
        raise Trouble(f"{NAME}: Python 3.11 or later is needed to read it") from None
    try:
        with open(path, encoding="utf-8") as file:
            text = file.read()
        return tomllib.loads(text), text
    except (OSError, UnicodeDecodeError) as error:
        raise Trouble(f'{os.path.relpath(path)}: {getattr(error, "strerror", None) or "not UTF-8 text"}') from None
    except tomllib.TOMLDecodeError as error:
        found = re.search(r" \(at line (\d+), column (\d+)\)$", str(error))
        place = f":{found[1]}:{found[2]}" if found else ""
        raise Trouble(f"{os.path.relpath(path)}{place}: {str(error)[:found.start()] if found else error}") from None


def options_of(parser: argparse.ArgumentParser) -> dict[str, argparse.Action]:
    """The options of a command, by their names without dashes."""
    return {
        option.lstrip("-"): action
        for option, action in parser._option_string_actions.items()
        if option not in ("-h", "--help")
    }

"""How a program starts and ends: the arguments of `main`, constructors and destructors, and `exit` in `main`."""
from __future__ import annotations

import os
import re
from typing import TYPE_CHECKING

from .constants import read_number
from .names import clean_name
from .refusals import Refused
from .stack import ALLOCA
from .tokens import Tokens
from .types import read_type

if TYPE_CHECKING:
    from .function import Function
    from .module import Module

# Functions of C that end the run; in `main` they become its return. Only the first runs the functions of `atexit`.
ENDS = ("exit", "_exit", "_Exit", "quick_exit")
# What clang makes for the global objects of a file in C++, which every reader expects to run.
OF_OBJECTS = re.compile(r"@(?:_GLOBAL__|__cxx_global_)")
AT_EXIT = "@hippo_run_atexit"
# The functions of the runtime for `main` whose words come from the input: the count, and the array.
WORDS_FROM_INPUT = (("i32", "hippo_read_words"), ("ptr", "hippo_words"))
# The function of the runtime that takes the second part of the heap, whose block is this much larger.
HEAP_ON_STACK, HEAP_UNIT = "hippo_heap_on_stack", 16


class Start:
    """What the lowering adds to `main`."""

    def __init__(self, module: Module) -> None:
        self.module = module
        self.parameter_count = 0
        self.globals: list[str] = []
        self.constructors: list[str] = []
        self.destructors: list[str] = []

    def read_list(self, line: str) -> None:
        """The functions of `@llvm.global_ctors` or `@llvm.global_dtors`, by their priorities."""
        tokens = Tokens(line)
        first = tokens.take() == "@llvm.global_ctors"
        while tokens.take() != "]":
            pass
        found = []
        if tokens.take_if("["):
            while not tokens.take_if("]"):
                read_type(tokens, self.module.named_types)
                tokens.take("{")
                tokens.take("i32")
                priority = read_number(tokens, "i32")
                tokens.take(",")
                tokens.take("ptr")
                found.append((priority, tokens.take()))
                while tokens.take() != "}":
                    pass
                tokens.take_if(",")
        found.sort(key=lambda entry: entry[0])
        if first:
            self.constructors = [name for _, name in found]
        else:
            self.destructors = [name for _, name in reversed(found)]

    def give_parameter(self, function: Function, written: str) -> None:
        """A parameter of `main`: the count of the words, the words, or the environment."""
        number = self.parameter_count
        self.parameter_count += 1
        used = re.compile(re.escape(written) + r"(?![-A-Za-z$._0-9])")
        if not any(used.search(line) for line, _ in function.lines):
            return
        if self.module.options.args_from_input and number < 2:
            function.values[written] = [self.read_words(function, number)]
            return
        given = self.module.options.arguments
        if number < 2 and given is None:
            raise Refused("main uses its parameters", "main")
        if number < 2 or not self.module.options.environment:
            self.module.note("arguments" if number < 2 else "environment")
        words = [self.program_name(), *(given or [])]
        if number == 0:
            function.values[written] = [str(len(words))]
        else:
            function.values[written] = [self.vector(words if number == 1 else self.module.options.environment, number)]

    def program_name(self) -> str:
        """The word before those of the command line."""
        return os.path.splitext(os.path.basename(self.module.options.files[0]))[0]

    def read_words(self, function: Function, number: int) -> str:
        """The register of the count of the words that the input begins with, or of their array."""
        result, callee = WORDS_FROM_INPUT[number]
        register = function.fresh("words")
        function.entry.append(
            f'{register} = call {result} @{self.module.names["@" + callee]}(ptr {self.word(self.program_name())})'
        )
        return register

    def word(self, word: str) -> str:
        """The address of a word."""
        name, spelled = self.global_name("argument"), [*os.fsencode(word), 0]
        items = ", ".join(f"i8 {byte - 256 if byte > 127 else byte}" for byte in spelled)
        self.globals.append(f"@{name} = global [{len(spelled)} x i8] [{items}]")
        return f"@{name}"

    def vector(self, words: list[str], number: int) -> str:
        """The address of an array of pointers to words, with a null pointer after them."""
        pointers = [f"ptr {self.word(word)}" for word in words]
        name = self.global_name("arguments" if number == 1 else "environment")
        self.globals.append(f'@{name} = global [{len(words) + 1} x ptr] [{", ".join([*pointers, "ptr null"])}]')
        return f"@{name}"

    def global_name(self, name: str) -> str:
        """A free name for a global that C does not have."""
        return clean_name(f"hippo.{name}", self.module.taken, "g")

    def call_constructors(self, function: Function) -> None:
        """Puts a block before the first one of `main`: what is allocated there, the second part of the heap, and the calls of the
        constructors, which may jump."""
        for kind, names in (("constructors", self.constructors), ("destructors", self.destructors)):
            if own := [name[1:] for name in names if self.module.is_own(name) and not OF_OBJECTS.match(name)]:
                self.module.note(kind, NAMES=", ".join(own))
        has_heap = self.module.options.heap_on_stack and f"@{HEAP_ON_STACK}" in self.module.names
        if not self.constructors and not has_heap:
            return
        first, *rest = function.out
        allocated = [line for line in rest if isinstance(line, str) and ALLOCA.match(line)]
        function.out, function.comment = [], function.added_comment
        function.begin(function.fresh("start")[1:])
        function.out += allocated
        if has_heap:
            block = function.fresh("heap")
            function.put(f"{block} = alloca [{self.module.options.heap_on_stack + HEAP_UNIT} x i8]")
            function.put(f'call void @{self.module.names[f"@{HEAP_ON_STACK}"]}(ptr {block})')
        for written in self.constructors:
            name = self.module.resolved(written)
            function.put(f"call void @{self.module.names[name]}()")
            function.note_call(name)
        function.put(f"br label %{first[:-1]}")
        function.out += [first, *(line for line in rest if line not in allocated)]

    def before_return(self, function: Function) -> None:
        """Puts what runs after `main` before its return: functions of `atexit`, and destructors."""
        if AT_EXIT in self.module.names:
            function.put(f"call void @{self.module.names[AT_EXIT]}()")
        for written in self.destructors:
            function.put(f"call void @{self.module.names[self.module.resolved(written)]}()")

    def end(self, function: Function, name: str, code: str) -> None:
        """`exit`, `_exit` and similar calls in `main`."""
        if name == "exit":
            self.before_return(function)
        function.end(f"ret i32 {code}")

"""The words of the command line as the first numbers of an input, as `--args-from-input` of tools/lower reads them."""
from __future__ import annotations

import os

from .program import Program

READERS = ("hippo_read_words", "hippo_words", "read_word")
SIZE = 8
FROM_INPUT = "--args-from-input"


def reads_words(program: Program) -> bool:
    """Whether main reads the words of the command line."""
    return any(
        instruction.callee and instruction.callee.rpartition(".")[2] in READERS
        for block in program.functions["main"].blocks
        for instruction in block.instructions
    )


def encoded(words: list[str]) -> list[int]:
    """The numbers of words, and the 0 after them. A word without a letter is a number whose lowest byte is 0."""
    numbers = []
    for word in words:
        spelled = os.fsencode(word) + b"\0"
        pieces = [spelled[at : at + SIZE] for at in range(0, len(spelled), SIZE)] if word else [b"\0\1"]
        numbers += [int.from_bytes(piece.ljust(SIZE, b"\0"), "little", signed=True) for piece in pieces]
    return [*numbers, 0]


def decoded(numbers: list[int]) -> tuple[list[str], list[int]]:
    """The words that an input begins with, and the numbers after them. An input that ends in its words has no number after them."""
    words: list[str] = []
    at = 0
    while at < len(numbers) and numbers[at]:
        word = b""
        while at < len(numbers):
            piece = numbers[at].to_bytes(SIZE, "little", signed=True)
            at += 1
            word += piece.split(b"\0")[0]
            if 0 in piece:
                break
        words.append(os.fsdecode(word))
    return words, numbers[at + 1 :]

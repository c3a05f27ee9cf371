"""The options of the lowering are declared once: hippo-c has each of them, and hands it on as it was given."""
import unittest

from . import common  # noqa: F401

from hippo_c import command
from lowering import options

GIVEN = {
    "heap": ["64K"],
    "heap-on-stack": ["32K"],
    "pool": ["a=4K", "b=8K,first"],
    "environment": ["HOME=/root", "A=b c"],
    "array-bound": ["128"],
    "compile-commands": ["commands.json"],
    "cache": ["kept"],
    "wrap": ["get", "put"],
}


class Shared(unittest.TestCase):
    """What tools/lower reads from words, and what it reads from those that hippo-c hands on."""

    def is_handed_on(self, words: list[str]) -> None:
        """The words mean the same to both."""
        own = options.parse(["a.c", *words], "")
        given, _, _ = command.read_words(["check", "a.c", *words])
        self.assertEqual(options.parse(["a.c", *command.lower_words(given)], ""), own, words)
        self.assertNotEqual(own, options.parse(["a.c"], ""), words)

    def test_each_option_is_handed_on(self) -> None:
        for option in options.OPTIONS:
            if option.metavar:
                self.is_handed_on([f"--{option.name}={text}" for text in GIVEN[option.name]])
            else:
                self.is_handed_on([f"--{option.name}"])

    def test_levels_are_handed_on(self) -> None:
        self.is_handed_on(["-O3"])


if __name__ == "__main__":
    unittest.main()

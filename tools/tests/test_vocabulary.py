"""What .ci/vocabulary.py refuses: planted mixes in a small repository, and none in this one."""

from __future__ import annotations

import sys
import tempfile
import unittest
from pathlib import Path

TOP = Path(__file__).resolve().parents[2]
sys.path.insert(0, str(TOP / ".ci"))

import vocabulary  # noqa: E402

PAGE = """# Vocabulary
| word | meaning | defined in |
|---|---|---|
| machine | takes steps | `hip_step`: `Machine` |

## Pairs that must not mix

| not | where | but |
|---|---|---|
| checker | crates, pages | verifier |
| check_ | the names of functions in `hip_typing/src` | verify_ |
| _check | the names of definitions in `hip_sound/specs` | _required |
| notes | the tracker's code in `hip_report/src` | ledger |
"""
MACHINE = {"docs/VOCABULARY.md": PAGE, "crates/hip_step/src/machine.rt": "pub struct Machine {\n"}


class Faults(unittest.TestCase):
    """Each kind of mix, planted in a small repository."""

    def faults(self, files: dict[str, str]) -> list[str]:
        """The faults of a repository with these files and a machine."""
        with tempfile.TemporaryDirectory() as folder:
            for name, text in {**MACHINE, **files}.items():
                path = Path(folder) / name
                path.parent.mkdir(parents=True, exist_ok=True)
                path.write_text(text, encoding="utf-8")
            return vocabulary.faults(Path(folder))

    def test_nothing_mixed(self) -> None:
        self.assertEqual(self.faults({}), [])

    def test_words_of_comments_and_pages(self) -> None:
        for name in ("crates/hip_a/src/a.rt", "crates/hip_a/specs/A.antt", "docs/PAGE.md", "README.md"):
            self.assertEqual(
                self.faults({name: "// sound\n// The checkers.\n"}), [f"{name}:2: 'checkers', but the word is verifier"]
            )
        self.assertEqual(self.faults({"crates/hip_a/out/a.rt": "// The checker.\n"}), [])

    def test_names_of_functions_and_definitions(self) -> None:
        self.assertEqual(
            self.faults(
                {"crates/hip_typing/src/rules.rt": "fn check_all() {\n", "crates/hip_a/src/a.rt": "fn check_all() {\n"}
            ),
            ["crates/hip_typing/src/rules.rt:1: 'fn check_all', but the word is verify_"],
        )
        self.assertEqual(
            self.faults({"crates/hip_sound/specs/Rules.antt": "abbrev pub names_check : Program\n"}),
            ["crates/hip_sound/specs/Rules.antt:1: 'abbrev pub names_check :', but the word is _required"],
        )

    def test_links_to_definitions(self) -> None:
        file = "crates/hip_a/specs/A.antt"
        there = {file: "pub record IsA (n : N) where\nmodule (P) where\n  abbrev pub the_a : N\n"}
        good = f"[`IsA`](../{file}), [`the_a`](../{file})\n"
        self.assertEqual(self.faults({**there, "docs/PAGE.md": good}), [])
        for name, path in (("the", file), ("IsB", file), ("IsA", "crates/hip_a/specs/B.antt")):
            self.assertEqual(
                self.faults({**there, "docs/PAGE.md": f"{good}[`{name}`](../{path})\n"}),
                [f"docs/PAGE.md:2: {path} does not define {name}"],
            )

    def test_the_ledger_of_the_tracker(self) -> None:
        name = "crates/hip_report/src/step.rt"
        self.assertEqual(
            self.faults({name: "// It notes a step.\nlet notes = 1;\n"}),
            [f"{name}:2: 'let notes', but the word is ledger"],
        )

    def test_two_things_of_one_name(self) -> None:
        self.assertEqual(
            self.faults(
                {
                    "crates/hip_a/specs/A.antt": "pub record IsKept (n : Nat) where\n",
                    "crates/hip_b/specs/B.antt": "record IsKept where\n",
                }
            ),
            ["crates/hip_b/specs/B.antt: a record IsKept is in crates/hip_a/specs/A.antt too"],
        )
        self.assertEqual(
            self.faults({"crates/hip_a/src/a.rt": "struct Machine;\n"}),
            ["crates/hip_step/src/machine.rt: a type Machine is in crates/hip_a/src/a.rt too"],
        )
        self.assertEqual(self.faults({"crates/hip_a_tests/src/a.rt": "struct Machine;\n"}), [])

    def test_files_that_are_no_things(self) -> None:
        for name in (
            "crates/hip_a/src/making.rt",
            "crates/hip_a/specs/PlanMaking.antt",
            "crates/hip_a/src/plan_making.rt",
        ):
            self.assertEqual(self.faults({name: ""}), [f"{name}: a file is a thing, and its name no gerund"])
        self.assertEqual(self.faults({"crates/hip_a/src/spelling.rt": "", "crates/hip_a/specs/Pending.antt": ""}), [])

    def test_places_of_rows(self) -> None:
        self.assertEqual(
            self.faults({"crates/hip_step/src/machine.rt": "struct Core;\n"}),
            ["docs/VOCABULARY.md: hip_step: Machine is not there"],
        )
        row = "| a step | `hip_step/src/machine.rt`: `Machine`, `step` (one), `stop` |\n"
        machine = {"crates/hip_step/src/machine.rt": "pub struct Machine {\n// stop\nfn step(\n"}
        self.assertEqual(
            self.faults({**machine, "docs/RUN.md": row}), ["docs/RUN.md: hip_step/src/machine.rt: stop is not there"]
        )


class Here(unittest.TestCase):
    """This repository."""

    def test_nothing_is_mixed(self) -> None:
        self.assertEqual(vocabulary.faults(TOP), [])

    def test_each_pair_is_refused(self) -> None:
        page = (TOP / vocabulary.PAGE).read_text(encoding="utf-8")
        for pair in vocabulary.pairs(page):
            planted = {"_": f"fn {pair.word}all() {{\n"}.get(pair.word[-1], pair.word)
            text = f"abbrev pub all{pair.word} : Nat\n" if pair.word.startswith("_") else planted
            self.assertRegex(text, vocabulary.pattern_of(pair))


if __name__ == "__main__":
    unittest.main()

"""The grammars for editors and the tags file."""

from __future__ import annotations

import json
import re
import subprocess
import sys
import tempfile
import unittest
from pathlib import Path
from typing import Any, Iterator

TOP = Path(__file__).resolve().parents[2]
SYNTAXES = TOP / "editors" / "vscode" / "syntaxes"
sys.path.append(str(TOP / "editors"))

import tags  # noqa: E402


def rules(node: Any) -> Iterator[dict[str, Any]]:
    """Each rule of a grammar."""
    if isinstance(node, dict):
        yield node
    for part in node.values() if isinstance(node, dict) else node if isinstance(node, list) else []:
        yield from rules(part)


def scope_of(grammar: str, line: str, text: str) -> set[str]:
    """The scopes that rules of one line give a text in it, whichever rule an editor tries first."""
    found = set()
    for rule in rules(json.loads((SYNTAXES / grammar).read_text(encoding="utf-8"))):
        for match in re.finditer(rule.get("match", "(?!)"), line):
            scopes = {0: rule.get("name", "")} | {
                int(key): part["name"] for key, part in rule.get("captures", {}).items()
            }
            found |= {scope for group, scope in scopes.items() if match[group] and match[group].strip() == text}
    return found - {""}


class Grammars(unittest.TestCase):
    """The two grammars."""

    def test_each_pattern_compiles_and_each_inclusion_exists(self) -> None:
        names = {}
        for path in sorted(SYNTAXES.iterdir()):
            grammar = json.loads(path.read_text(encoding="utf-8"))
            names[grammar["scopeName"]] = set(grammar["repository"])
        self.assertEqual(set(names), {"source.rattle", "source.antt"})
        for path in sorted(SYNTAXES.iterdir()):
            grammar = json.loads(path.read_text(encoding="utf-8"))
            for rule in rules(grammar):
                for key in ("match", "begin", "end"):
                    if isinstance(rule.get(key), str):
                        re.compile(rule[key])
                if isinstance(rule.get("include"), str):
                    scope, _, part = rule["include"].partition("#")
                    self.assertIn(part, names[scope or grammar["scopeName"]], rule["include"])

    def test_words_have_their_scopes(self) -> None:
        for grammar, line, text, scope in (
            ("rattle.tmLanguage.json", "pub fn plan(alloc: Global) -> Plan", "plan", "entity.name.function.rattle"),
            ("rattle.tmLanguage.json", "pub enum Instr {", "Instr", "entity.name.type.rattle"),
            ("rattle.tmLanguage.json", "    let x: u64 = 0x40;", "0x40", "constant.numeric.rattle"),
            ("antt.tmLanguage.json", "abbrev pub fresh_line : Line P", "fresh_line", "entity.name.function.antt"),
            ("antt.tmLanguage.json", "pub record IsOrdered", "record", "keyword.control.antt"),
            ("antt.tmLanguage.json", "set-here xs i = omega arith", "omega", "support.function.tactic.antt"),
        ):
            with self.subTest(line):
                self.assertIn(scope, scope_of(grammar, line, text))

    def test_a_clause_begins_antt(self) -> None:
        grammar = json.loads((SYNTAXES / "rattle.tmLanguage.json").read_text(encoding="utf-8"))
        begin = re.compile(grammar["repository"]["clause"]["begin"])
        for line in (
            "    ensures { IfOk result (λ x. x ≡ 1) }",
            "    requires room { HasRoom core.old }",
            "    ghost state = { s }",
        ):
            self.assertIsNotNone(begin.match(line), line)
        self.assertIsNone(begin.match("    let ghost = 1;"))


class Tags(unittest.TestCase):
    """The tags file."""

    def test_a_line_names_what_it_defines(self) -> None:
        for line, ending, wanted in (
            ("    pub fn new(alloc: Global) -> Notes", ".rt", ("new", "f")),
            ("pub(crate) struct Row<T> {", ".rt", ("Row", "s")),
            ("// fn no", ".rt", None),
            ("abbrev pub fresh_line : {P : Type 0} → Line P", ".antt", ("fresh_line", "d")),
            ("set-here : (xs : List ℕ) → xs ≡ xs", ".antt", ("set-here", "l")),
            ("-- a : b", ".antt", None),
            ("  pub parts : List P", ".antt", None),
        ):
            self.assertEqual(tags.names_in(line, ending), wanted, line)

    def test_the_file_leads_to_the_lines(self) -> None:
        with tempfile.TemporaryDirectory() as room:
            ran = subprocess.run(
                [sys.executable, "-B", TOP / "editors" / "tags.py", f"{room}/tags"],
                capture_output=True,
                text=True,
                check=True,
            )
            lines = Path(room, "tags").read_text(encoding="utf-8").splitlines()
        self.assertIn("names", ran.stdout)
        entries = [line.split("\t") for line in lines if not line.startswith("!")]
        self.assertEqual(entries, sorted(entries, key="\t".join))
        for name, file, place, _ in entries[:: max(1, len(entries) // 200)]:
            line = (TOP / file).read_text(encoding="utf-8").splitlines()[int(place.rstrip(';"')) - 1]
            self.assertIn(name, line, file)


if __name__ == "__main__":
    unittest.main()

"""The pages of promises and of wrong bodies name only what the crates have."""

from __future__ import annotations

import re
import unittest
from pathlib import Path

TOP = Path(__file__).resolve().parent.parent.parent
CRATES = TOP / "crates"
# A function, type or constant of the code; a part of its contract; a definition.
IN_CODE = re.compile(r"\b(?:fn|struct|enum|trait|type|const|ghost|ensures) (\w+)")
VARIANT = re.compile(r"^ {4}([A-Z]\w*)(?:[,({ ]|$)", re.M)
IN_SPECS = re.compile(r"^\s*(?:abbrev pub|unfoldable pub|pub record|pub data|pub) ([\w-]+)", re.M)
HEADING = re.compile(r"^## `(\w+)`$")
QUOTED = re.compile(r"`([^`]+)`")
EDIT = re.compile(r"`(hip_\w+/\w+)`")
MOST_EDITS = 12


def names_of(crate: Path) -> set[str]:
    """What the sources and the definitions of a crate declare."""
    names: set[str] = set()
    for file in crate.glob("src/**/*.rt"):
        text = file.read_text(encoding="utf-8")
        names.update(IN_CODE.findall(text), VARIANT.findall(text))
    for file in crate.glob("specs/**/*.antt"):
        names.update(IN_SPECS.findall(file.read_text(encoding="utf-8")))
    return names


def promised(page: str) -> list[tuple[int, str, list[str]]]:
    """The names that each row of promises cites, with the number of its line and the crate of its heading."""
    rows = []
    crate = ""
    for number, line in enumerate(page.splitlines(), 1):
        heading = HEADING.match(line)
        if heading:
            crate = heading[1]
        if line.startswith("  ("):
            rows.append((number, crate, QUOTED.findall(line)))
    return rows


def unknown_promises(page: str, known: dict[str, set[str]]) -> list[str]:
    """The rows whose first name their crate does not declare, and those with a name that no crate declares."""
    everywhere = set().union(*known.values())
    faults = []
    for number, crate, cited in promised(page):
        if crate not in known:
            faults.append(f"{number}: no crate {crate}")
            continue
        last = [name.split("::")[-1] for name in cited]
        if last[0] not in known[crate]:
            faults.append(f"{number}: {crate} has no {cited[0]}")
        faults.extend(f"{number}: no crate has {name}" for name in last[1:] if name not in everywhere)
    return faults


def unknown_edits(page: str, edits: set[str]) -> list[str]:
    """The edits that a page names and no crate has."""
    return sorted(set(EDIT.findall(page)) - edits)


def unknown_clauses(page: str, known: dict[str, set[str]]) -> list[str]:
    """The names in the third column of a table of four that no crate declares: calls, `Type::method` and definitions."""
    everywhere = set().union(*known.values())
    faults: list[str] = []
    for number, line in enumerate(page.splitlines(), 1):
        cells = line.split("|")
        quoted = QUOTED.findall(cells[3]) if len(cells) == 6 else []
        parts = [part for name in quoted for part in name.split("::") if re.fullmatch(r"[\w-]+", part)]
        faults.extend(f"{number}: no crate has {part}" for part in parts if part not in everywhere)
    return faults


def refuting_laws(page: str) -> list[str]:
    """The laws in the last column of the table of wrong repairs."""
    table = page.partition("## Wrong repairs that laws refute")[2].partition("\n## ")[0]
    rows = [line for line in table.splitlines() if line.startswith("| ") and not line.startswith("| wrong repair")]
    return [QUOTED.findall(line)[-1] for line in rows]


class OnText(unittest.TestCase):
    """Pages of a few lines."""

    KNOWN = {"hip_low": {"law", "IsSo"}, "hip_high": {"call"}}

    def test_a_page_of_known_names_passes(self) -> None:
        page = "## `hip_high`\n\n- A call.\n  (`call`: `IsSo`)\n\n## `hip_low`\n\n- A law.\n  (`law`)\n"
        self.assertEqual(unknown_promises(page, self.KNOWN), [])

    def test_an_unknown_law_is_told(self) -> None:
        page = "## `hip_low`\n\n- A law.\n  (`lost`: `IsSo`)\n"
        self.assertEqual(unknown_promises(page, self.KNOWN), ["4: hip_low has no lost"])

    def test_an_unknown_definition_is_told(self) -> None:
        page = "## `hip_low`\n\n- A law.\n  (`law`: `WasSo`)\n"
        self.assertEqual(unknown_promises(page, self.KNOWN), ["4: no crate has WasSo"])

    def test_an_unknown_crate_is_told(self) -> None:
        self.assertEqual(
            unknown_promises("## `hip_gone`\n\n- A law.\n  (`law`)\n", self.KNOWN), ["4: no crate hip_gone"]
        )

    def test_an_unknown_edit_is_told(self) -> None:
        page = "| a | b | c | `hip_low/is_there`, `hip_low/is_gone` |\n"
        self.assertEqual(unknown_edits(page, {"hip_low/is_there"}), ["hip_low/is_gone"])

    def test_an_unknown_clause_is_told(self) -> None:
        page = "| a | b | `Gone::call`: so it is (`IsSo`) | `hip_low/edit` |\n"
        self.assertEqual(unknown_clauses(page, self.KNOWN), ["1: no crate has Gone"])


class Own(unittest.TestCase):
    """The pages of this repository."""

    def setUp(self) -> None:
        self.known = {crate.name: names_of(crate) for crate in sorted(CRATES.iterdir()) if crate.is_dir()}
        self.wrong_bodies = (TOP / "docs" / "WRONG_BODIES.md").read_text(encoding="utf-8")

    def test_each_promise_names_what_is_there(self) -> None:
        page = (TOP / "docs" / "PROMISES.md").read_text(encoding="utf-8")
        self.assertGreater(len(promised(page)), 100)
        self.assertEqual(unknown_promises(page, self.known), [])

    def test_each_wrong_body_is_an_edit(self) -> None:
        edits = {f"{file.parent.parent.name}/{file.stem}" for file in CRATES.glob("*/must-fail/*.edit")}
        self.assertGreater(len(EDIT.findall(self.wrong_bodies)), 100)
        self.assertEqual(unknown_edits(self.wrong_bodies, edits), [])

    def test_each_clause_of_a_wrong_body_is_there(self) -> None:
        self.assertEqual(unknown_clauses(self.wrong_bodies, self.known), [])

    def test_each_refuting_law_is_there(self) -> None:
        laws = refuting_laws(self.wrong_bodies)
        self.assertGreater(len(laws), 3)
        self.assertEqual([law for law in laws if law not in self.known["hip_histories"]], [])

    def test_no_crate_has_too_many_edits(self) -> None:
        for folder in CRATES.glob("*/must-fail"):
            with self.subTest(crate=folder.parent.name):
                self.assertLessEqual(len(list(folder.glob("*.edit"))), MOST_EDITS)


if __name__ == "__main__":
    unittest.main()

"""The page with the last result: docs/WRONG_TOOLS.md."""
from __future__ import annotations

import re
from typing import NamedTuple

from . import EDITS, Edit
from .copies import TOP

PAGE = TOP / "docs" / "WRONG_TOOLS.md"
HEAD = """# Wrong tools

hippo is proved; `tools/lower`, its runtime, `hippo-c` and the launcher are not. This page lists edits of these tools that would make a verdict
false, or hide one, and for each the test that must see it. `python3 tools/tests/try_wrong_tools.py` runs each test without an edit, where it must
pass, then applies each edit to a copy of the repository and runs its test, which must fail. Then it writes this page; names of edits select
some. The gate does not run it, since it runs hundreds of compilations. The gate runs `tools/tests/test_wrong_tools.py`, which compares this
page with the table of edits in `tools/tests/wrong_tools/` and applies each edit: it must change one place of today's text, and what it
makes must compile. `--applies` does the same alone. An edit that is new or does something else is not tried yet.

"""
TABLE = "| edit | what the tool then does | file | the test that fails |\n|---|---|---|---|\n"
ROW = re.compile(r"^\| (\w+) \| (.*) \| `([^`]+)` \| (.*) \|$", re.M)
NOT_SEEN, NOT_TRIED = "not seen", "not tried"


class Row(NamedTuple):
    """A row of the page: what an edit does, its file, and the test that fails, `not seen` or `not tried`."""

    what: str
    file: str
    result: str


def seen_by(edit: Edit) -> str:
    """The result of an edit whose test fails with it."""
    return f"`{edit.test}`"


def read_page() -> dict[str, Row]:
    """The rows of the page by the names of their edits."""
    if not PAGE.exists():
        return {}
    return {found[1]: Row(found[2], found[3], found[4]) for found in ROW.finditer(PAGE.read_text(encoding="utf-8"))}


def write_page(tried: dict[str, str]) -> None:
    """Writes the page. `tried` has the results of the edits that were tried now; the others keep theirs, unless an edit or its test is another now."""
    old, rows = read_page(), {}
    for edit in EDITS:
        before = old.get(edit.name)
        kept = (
            before.result
            if before and before[:2] == (edit.what, edit.file) and before.result in (seen_by(edit), NOT_SEEN)
            else NOT_TRIED
        )
        rows[edit.name] = Row(edit.what, edit.file, tried.get(edit.name, kept))
    lines = [f"| {name} | {row.what} | `{row.file}` | {row.result} |\n" for name, row in rows.items()]
    PAGE.write_text(HEAD + counts(rows) + TABLE + "".join(lines), encoding="utf-8")


def counts(rows: dict[str, Row]) -> str:
    """The line that counts the rows."""
    results = [row.result for row in rows.values()]
    others = [
        f"{results.count(word)} {said}"
        for word, said in ((NOT_SEEN, "no test sees"), (NOT_TRIED, "are not tried yet"))
        if word in results
    ]
    seen = len(results) - results.count(NOT_SEEN) - results.count(NOT_TRIED)
    return f"{len(rows)} edits. " + "; ".join([f"Tests see {seen}", *others]) + ".\n\n"

"""The files of a page: a row for each line, with the number of its reports, the lines that did not run, and what to add."""
from __future__ import annotations

from collections import defaultdict
from typing import Any

from .diagnostics import amount
from .highlight import lines_in_html
from .page_text import escaped
from .sources import lines_of


class Sources:
    """The groups and the suggestions of a page by lines, and the lines that no input ran."""

    def __init__(self, groups: list[dict[str, Any]], not_run: dict[str, list[tuple[int, int]]]) -> None:
        self.groups = groups
        self.at: defaultdict[tuple[str, int], list[int]] = defaultdict(list)
        self.added: defaultdict[tuple[str, int], list[str]] = defaultdict(list)
        self.not_run = {
            (file, line)
            for file, ranges in not_run.items()
            for first, last in ranges
            for line in range(first, last + 1)
        }
        for index, group in enumerate(groups):
            if group["store"]:
                self.at[group["store"]["file"], group["store"]["line"]].append(index)
            suggestion = group["suggestion"]
            if suggestion and suggestion["place"]:
                here = self.added[suggestion["place"]["file"], suggestion["place"]["line"]]
                texts = suggestion["statements"] if not suggestion["by_hand"] else [f'// {suggestion["text"]}']
                here += [text for text in texts if text not in here]

    def section(self, file: str, number: int) -> str:
        """A file."""
        lines = lines_of(file)
        rows = []
        if lines in ([], [""]):
            rows.append('<p class="hint">The lines are not shown: clang read no file of this name and content.</p>')
        lines = lines[:-1] if lines and not lines[-1] else lines
        for line, (code, text) in enumerate(zip(lines, lines_in_html(lines)), 1):
            rows.append(self.row(file, number, line, text))
            indent = code[: len(code) - len(code.lstrip())]
            rows += [
                f'<div class="line added"><span></span><span>+</span><code>{escaped(indent + one)}</code></div>'
                for one in self.added.get((file, line), [])
            ]
        return f'<section id="f{number}"><h2>{escaped(file)}</h2><div class="source">{"".join(rows)}</div></section>'

    def row(self, file: str, number: int, line: int, text: str) -> str:
        """A line of a file."""
        here = self.at.get((file, line), [])
        mark, kind = "", " idle" if (file, line) in self.not_run else ""
        if here:
            count = sum(self.groups[index]["reports"] for index in here)
            title = ", ".join(sorted({self.groups[index]["kind"] for index in here}))
            mark = (
                f'<button class="badge" data-group="{here[0]}" data-all="{" ".join(map(str, here))}" '
                f'title="{title}" aria-label="{amount(count, "report")}, {title}">{count:,}</button>'
            )
            kind += " reported"
        title = ' title="no input ran this line"' if "idle" in kind else ""
        return (
            f'<div class="line{kind}" id="f{number}l{line}"{title}><span>{mark}</span><span>{line}</span>'
            f"<code>{text}</code></div>"
        )

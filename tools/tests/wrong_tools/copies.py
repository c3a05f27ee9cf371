"""Copies of the repository in which tests run with an edit and without."""
from __future__ import annotations

import os
import re
import shutil
import subprocess
import sys
from pathlib import Path
from typing import NamedTuple

from .edit import Edit

TOP = Path(__file__).resolve().parents[3]
# Each file of C stands alone for a test of its syntax.
SYNTAX = "clang-19 -x c -fsyntax-only -w -D_GNU_SOURCE -mclwb -mclflushopt".split()
# What the tests read and tools write; the rest of a copy is links.
COPIED = ("tools", ".ci", "examples", "docs")
FAILED = re.compile(r"^(?:FAIL|ERROR): \w+ \((?!unittest\.loader)[\w.]+\)", re.M)
PASSED = re.compile(r"^Ran 1 test in .*\n\nOK$", re.M)


class Outcome(NamedTuple):
    """How a test ended: whether it passed, whether it failed, and its last lines. A test that is skipped, or that is not there, does neither."""

    passed: bool
    failed: bool
    said: str


def make_copy(folder: Path) -> Path:
    """A copy of the repository in a new folder."""
    folder.mkdir()
    for path in sorted(TOP.iterdir()):
        if path.name in COPIED:
            shutil.copytree(path, folder / path.name, symlinks=True, ignore=shutil.ignore_patterns("__pycache__"))
        elif path.is_file():
            shutil.copy2(path, folder / path.name)
        elif path.name not in (".git", "out"):
            (folder / path.name).symlink_to(path)
    return folder


def run_test(copy: Path, test: str) -> Outcome:
    """Runs a test in a copy."""
    environment = {"HIPPO_PROGRAM": str(TOP / "out" / "hippo"), **os.environ}
    ran = subprocess.run(
        [sys.executable, "-B", "-m", "unittest", test],
        cwd=copy / "tools" / "tests",
        env=environment,
        stdin=subprocess.DEVNULL,
        capture_output=True,
        encoding="utf-8",
        errors="replace",
        check=False,
    )
    passed = ran.returncode == 0 and PASSED.search(ran.stderr) is not None
    failed = ran.returncode == 1 and FAILED.search(ran.stderr) is not None
    return Outcome(passed, failed, (ran.stdout + ran.stderr)[-2000:])


def changed(edit: Edit, text: str) -> str:
    """The text of a file with an edit, which changes one place."""
    if text.count(edit.old) != 1:
        raise ValueError(f"{edit.name}: {edit.file} has its text {text.count(edit.old)} times")
    if edit.old == edit.new:
        raise ValueError(f"{edit.name}: it changes nothing")
    return text.replace(edit.old, edit.new)


def fault_of(edit: Edit) -> str:
    """Why an edit does not apply to the text of today, or why the text with it is neither Python nor C; nothing for any other."""
    path = TOP / edit.file
    try:
        text = changed(edit, path.read_text(encoding="utf-8"))
        if path.suffix == ".py":
            compile(text, edit.file, "exec")
    except (OSError, ValueError, SyntaxError) as error:
        return str(error)
    if path.suffix not in (".c", ".h"):
        return ""
    folders = [f"-I{folder}" for folder in (TOP / "tools", TOP / "tools" / "runtime", path.parent)]
    ran = subprocess.run([*SYNTAX, *folders, "-"], input=text, capture_output=True, encoding="utf-8", check=False)
    return ran.stderr.strip()


def with_edit(copy: Path, edit: Edit) -> Outcome:
    """Runs the test of an edit in a copy that has it, and takes it back."""
    path = copy / edit.file
    text = path.read_text(encoding="utf-8")
    path.write_text(changed(edit, text), encoding="utf-8")
    try:
        return run_test(copy, edit.test)
    finally:
        path.write_text(text, encoding="utf-8")

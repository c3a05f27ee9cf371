"""The command line of tools/release."""

from __future__ import annotations

import argparse
import os
import sys
import tempfile
from pathlib import Path

from .archive import write_archive
from .contents import write_contents
from .debian import write_package
from .origin import TOP, Origin, origin_of
from .refusal import Refused
from .tree import digest_of, make_tree

REFUSED = 2


def parser(description: str) -> argparse.ArgumentParser:
    """The words of the command."""
    words = argparse.ArgumentParser(
        "release", description=description, formatter_class=argparse.RawDescriptionHelpFormatter, allow_abbrev=False
    )
    words.add_argument("--out", metavar="FOLDER", type=Path, required=True, help="where the files of the release go")
    words.add_argument(
        "--deb",
        action="store_true",
        help="make the package for Debian too; DEBFULLNAME and DEBEMAIL name who answers for it",
    )
    return words


def make(origin: Origin, out: Path, with_package: bool) -> list[Path]:
    """Makes the files of a release in an empty folder, and returns them."""
    archive, contents = out / f"{origin.name}.tar.gz", out / f"{origin.name}.spdx.json"
    package = out / f"hippo_{origin.version}_amd64.deb"
    with tempfile.TemporaryDirectory(prefix="hippo-release-") as name:
        folder = Path(name) / origin.name
        make_tree(origin, folder)
        write_archive(origin, folder, archive)
        write_contents(origin, folder, (TOP / "crates.txt").read_text(encoding="utf-8"), contents)
        if with_package:
            write_package(origin, folder, Path(name), package)
    made = [archive, contents, *([package] if with_package else [])]
    sums = out / "SHA256SUMS"
    sums.write_text("".join(f"{digest_of(file)}  {file.name}\n" for file in made), encoding="utf-8")
    return [*made, sums]


def release(out: Path, with_package: bool) -> None:
    """Makes a release; its files reach the folder when all of them are complete."""
    origin = origin_of(TOP)
    out.mkdir(parents=True, exist_ok=True)
    os.umask(0o022)
    with tempfile.TemporaryDirectory(dir=out, prefix=".new-") as room:
        made = make(origin, Path(room), with_package)
        for file in made:
            os.replace(file, out / file.name)
            print(out / file.name)


def main(words: list[str], description: str) -> int:
    """Carries out the command, and returns its exit code."""
    given = parser(description).parse_args(words)
    try:
        release(given.out, given.deb)
        return 0
    except Refused as fault:
        print(f"release: {fault}", file=sys.stderr)
    except OSError as error:
        print(f"release: {error.filename or given.out}: {error.strerror}", file=sys.stderr)
    return REFUSED

"""What a release is made from: the proved program of these sources, and the version and commit that name it."""

from __future__ import annotations

import os
import re
import subprocess
import sys
from dataclasses import dataclass
from pathlib import Path

from .refusal import Refused

TOP = Path(__file__).resolve().parents[2]
sys.path.append(str(TOP / "tools" / "launcher"))

from kept import PROVED, Kept  # noqa: E402
from sources import Failed, Sources  # noqa: E402

HEADING = re.compile(r"^## (\S+)", re.M)
LIBRARY_VERSION = re.compile(r"\(?GLIBC_([0-9.]+)\)?")


@dataclass(frozen=True)
class Origin:
    """A proved program, the version and commit of its sources, the time of the commit, and the toolchain that proved it."""

    program: Path
    version: str
    commit: str
    time: int
    toolchain: str

    @property
    def name(self) -> str:
        """The name of the archive without its ending, and of the folder in it."""
        return f"hippo-{self.version}-linux-x86_64"


def read_version(top: Path) -> str:
    """The version in VERSION, which the first heading of CHANGELOG.md must name too."""
    version = (top / "VERSION").read_text(encoding="utf-8").strip()
    first = HEADING.search((top / "CHANGELOG.md").read_text(encoding="utf-8"))
    if not re.fullmatch(r"\d+\.\d+\.\d+", version):
        raise Refused(f"VERSION has no version of the form 1.2.3: {version}")
    if not first or first[1] != version:
        raise Refused(
            f"VERSION says {version}, and the first heading of CHANGELOG.md says {first[1] if first else 'nothing'}"
        )
    return version


def time_of(top: Path) -> int:
    """The time of every file of the release: SOURCE_DATE_EPOCH, or the time of the commit, in seconds since 1970."""
    given = os.environ.get("SOURCE_DATE_EPOCH")
    if given is not None:
        if not re.fullmatch(r"[0-9]{1,11}", given):
            raise Refused(f"SOURCE_DATE_EPOCH is not a number of seconds: {given}")
        return int(given)
    ran = subprocess.run(
        ["git", "-C", str(top), "log", "-1", "--format=%ct"], capture_output=True, text=True, check=False
    )
    if ran.returncode:
        raise Refused("no commit gives the time of the files: set SOURCE_DATE_EPOCH")
    return int(ran.stdout)


def origin_of(top: Path) -> Origin:
    """What a release of this repository is made from. Only a program that is proved from these very sources will do."""
    try:
        sources, kept = Sources(top), Kept(top / PROVED)
        if not kept.is_made_from(sources.digest()):
            raise Refused("out/hippo is not proved from these sources: ./hippo --build proves it")
    except Failed as fault:
        raise Refused(str(fault)) from None
    commit = sources.commit()
    if not re.fullmatch(r"[0-9a-f]{40}", commit):
        raise Refused(f"a release is made from a clean commit, and this one is: {commit}")
    return Origin(kept.program, read_version(top), commit, time_of(top), kept.read_stamp()["toolchain"])


def needed_library(program: Path) -> str:
    """The oldest version of the GNU C library that a program runs with."""
    try:
        ran = subprocess.run(["objdump", "-T", str(program)], capture_output=True, text=True, check=True)
    except (OSError, subprocess.CalledProcessError) as error:
        raise Refused(f"objdump does not read {program}: {error}") from None
    versions = LIBRARY_VERSION.findall(ran.stdout)
    if not versions:
        raise Refused(f"{program} names no version of the C library")
    newest: str = max(versions, key=lambda version: [int(part) for part in version.split(".")])
    return newest

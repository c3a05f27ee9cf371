"""For the tests of the launcher: a small repository, and a toolchain that proves nothing.

The program of `rt try` is a copy of bash here: `hippo WORD ...` runs the script WORD in the caller's folder. The proved program is a
script that prints `proved` and its words. Files beside the toolchain decide what it does next.
"""

from __future__ import annotations

import os
import resource
import shutil
import signal
import subprocess
import tempfile
import unittest
from pathlib import Path
from typing import Any

TOP = Path(__file__).resolve().parents[2]
# A guard of last resort, in seconds: what the tests wait for takes a few seconds on an idle machine.
LONG = 1200
RT = r"""#!/bin/bash
here=$(dirname "$0")
echo "$*" >>"$here/calls"
case $1 in
  version) echo 'kit of tests' ;;
  try)
    echo 'rt: a line of the toolchain' >&2
    [ -e "$here/no-program" ] && { echo 'error: no such name' >&2; exit 1; }
    while [ "$1" != -- ]; do shift; done
    shift
    room=$(mktemp -d)
    trap 'kill $!; wait $!; rm -rf "$room"; exit 143' TERM
    cp "$(readlink -f /bin/bash)" "$room/program"
    echo 'while :; do sleep 0.1; done' >"$room/run"
    (cd "$room" && exec "$room/program" "$@") &
    wait ;;
  ci)
    [ -e "$here/locked" ] && echo 'rt: hip_low: another run on this machine is proving the same; waiting for it' && sleep 2
    for crate in hip_low hippo; do
      while [ -e "$here/holds-$crate" ]; do sleep 0.05; done
      if [ -e "$here/fails" ]; then echo "rt: $crate NOT PROVED"; exit 1; fi
      echo "rt: $crate proved"
    done
    mkdir -p crates/hippo/out
    printf '#!/bin/bash\necho proved "$@"\nexit 7\n' >crates/hippo/out/hippo
    chmod +x crates/hippo/out/hippo ;;
esac
"""


class Repository(unittest.TestCase):
    """A repository of two crates with the launcher, and a toolchain."""

    def setUp(self) -> None:
        """Makes the repository, the toolchain and a folder of the caller."""
        self.room = Path(tempfile.mkdtemp(prefix="launcher-"))
        self.addCleanup(shutil.rmtree, self.room, ignore_errors=True)
        self.top, self.kit, self.work = self.room / "clone", self.room / "kit", self.room / "work"
        for crate in ("hip_low", "hippo"):
            for part in ("src", "specs"):
                (self.top / "crates" / crate / part).mkdir(parents=True)
                (self.top / "crates" / crate / part / "lib").write_text(f"{crate} {part}\n")
        (self.top / "crates.txt").write_text("hip_low:\nhippo: hip_low\nhip_tests: hip_low\n")
        (self.top / "HANDLES").write_text("Handles allowed: none.\n")
        shutil.copy(TOP / "hippo", self.top)
        shutil.copy(TOP / "VERSION", self.top)
        shutil.copytree(TOP / "tools" / "launcher", self.top / "tools" / "launcher")
        shutil.copy(TOP / "tools" / "crate_schedule.py", self.top / "tools")
        (self.top / "tools" / "crate_weights.txt").write_text("# Seconds.\nhip_low 60\nhippo 120\n")
        self.kit.mkdir()
        self.work.mkdir()
        (self.kit / "rt").write_text(RT)
        (self.kit / "rt").chmod(0o755)
        (self.work / "repair").write_text('cat "$1"\necho "counts $#" >&2\nexit 3\n')

    def environment(self, **more: str) -> dict[str, str]:
        """An environment with the toolchain on its PATH."""
        kept = {name: value for name, value in os.environ.items() if name != "HIPPO_PROGRAM"}
        return {**kept, "PATH": f"{self.kit}:{os.environ['PATH']}", **more}

    def hippo(self, *words: str, **how: Any) -> subprocess.CompletedProcess[str]:
        """Runs the launcher in the folder of the caller's files."""
        environment = self.environment(**how.pop("more", {}))
        command = [str(how.pop("script", self.top / "hippo")), *words]
        return subprocess.run(
            command, cwd=self.work, env=environment, capture_output=True, text=True, timeout=LONG, **how
        )

    def calls(self, verb: str) -> int:
        """How often a command of the toolchain was given."""
        file = self.kit / "calls"
        return sum(line.split()[0] == verb for line in file.read_text().splitlines()) if file.exists() else 0

    def change(self, file: str) -> None:
        """Appends to a source, and leaves its time of change as it was."""
        path = self.top / file
        was = path.stat()
        with path.open("a") as opened:
            opened.write("more\n")
        os.utime(path, ns=(was.st_atime_ns, was.st_mtime_ns))

    def lines(self, ran: subprocess.CompletedProcess[str]) -> list[str]:
        """The launcher's lines on standard error, where no other line is the toolchain's."""
        self.assertNotIn("rt: ", ran.stderr)
        return [line for line in ran.stderr.splitlines() if line.startswith("hippo: ")]

    def fails(self, ran: subprocess.CompletedProcess[str], words: str) -> None:
        """The launcher cannot answer: exit code 69, no standard output, and the words on the last line."""
        self.assertEqual((ran.returncode, ran.stdout), (69, ""), ran.stderr)
        self.assertRegex(ran.stderr.splitlines()[-1], words)


def small_files() -> None:
    """Lets a write fail, as on a full disk, in a file above 100 KiB."""
    resource.setrlimit(resource.RLIMIT_FSIZE, (100 << 10, 100 << 10))
    signal.signal(signal.SIGXFSZ, signal.SIG_IGN)

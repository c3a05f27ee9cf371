"""What .ci/repository.py refuses, and where the script for Debian's packages finds them."""

from __future__ import annotations

import subprocess
import sys
import tempfile
import unittest
from pathlib import Path

TOP = Path(__file__).resolve().parents[2]
sys.path[:0] = [str(TOP / ".ci"), str(TOP / "tools" / "tests" / "debian")]

import packages  # noqa: E402
import repository  # noqa: E402

# In parts, since the check reads this file too.
MIRROR = "deb.mirror" + ".org"
HOME = "/ho" + "me/someone/hippo"


class Faults(unittest.TestCase):
    """Each kind of fault, in a small repository."""

    def faults(self, name: str, text: str | bytes) -> list[str]:
        """The faults of a repository with one file."""
        with tempfile.TemporaryDirectory() as folder:
            path = Path(folder) / name
            path.parent.mkdir(parents=True, exist_ok=True)
            path.write_bytes(text if isinstance(text, bytes) else text.encode())
            for words in (["init", "-q"], ["add", "--force", "--", name]):
                subprocess.run(["git", *words], cwd=folder, check=True, capture_output=True)
            return list(repository.faults(Path(folder)))

    def test_files_that_tools_make(self) -> None:
        for name in (
            "tools/__pycache__/a.cpython-311.pyc",
            "a.pyc",
            "out/hippo",
            "crates/hip_a/out/log",
            "tools/a.o",
            "a.json.part",
            "a.c~",
        ):
            self.assertEqual(self.faults(name, "text\n"), [f"{name}: a tool makes this file, so git must not track it"])
        for name in ("program", "docs/page.png"):
            self.assertEqual(self.faults(name, b"\x7fELF\0\0"), [f"{name}:1: bytes that are not a text"])
        self.assertEqual(self.faults("page.png", repository.PICTURE + b"\0"), ["page.png:1: bytes that are not a text"])
        self.assertEqual(self.faults("docs/page.png", repository.PICTURE + b"\0"), [])

    def test_hosts(self) -> None:
        for text in (
            f"# packages\nURL = 'http://{MIRROR}/packages'\n",
            f"#\nfetch {MIRROR}:80\n",
            f"\nhttps://me@{MIRROR}\n",
        ):
            self.assertEqual(self.faults("a.py", text), [f"a.py:2: the host {MIRROR}"])
        for host in ("localhost:8080", "10.1.2.3", "mirror"):
            self.assertEqual(self.faults("a.sh", f"curl http://{host}/x\n"), [f"a.sh:1: the host {host.split(':')[0]}"])

    def test_paths_of_one_machine(self) -> None:
        for text in (f"cd {HOME}\n", f"PATH={HOME}/bin\n", f"see `{HOME}`\n", f"-I'{HOME}'\n"):
            self.assertEqual(self.faults("a.md", text), ["a.md:1: the path of one machine, /ho" + "me/s.."])

    def test_what_is_no_fault(self) -> None:
        for text in (
            "#!/usr/bin/env bash\n",
            "$HOME/home/a <b>/root/c\n",
            "hippo.out/in, lib.rs, a.io(), x.net_ = 1\n",
            "https://json.schemastore.org/sarif\n",
            "cd /tmp/x && cat /proc/self/maps >/dev/null\n",
        ):
            self.assertEqual(self.faults("notes.out", text), [])


class Sources(unittest.TestCase):
    """The lists that the script for Debian's packages makes of those of the system's apt."""

    def test_source_packages_are_named_beside_the_built_ones(self) -> None:
        self.assertEqual(
            packages.with_source_packages("# deb\ndeb [signed-by=/a] file:/b c main\n"),
            "# deb\ndeb [signed-by=/a] file:/b c main\ndeb-src [signed-by=/a] file:/b c main\n",
        )
        self.assertEqual(
            packages.with_source_packages("Types: deb\nURIs: file:/b\n"), "Types: deb deb-src\nURIs: file:/b\n"
        )
        for text in ("Types: deb deb-src\nURIs: file:/b\n", "deb-src file:/b c main\n"):
            self.assertEqual(packages.with_source_packages(text), text)


if __name__ == "__main__":
    unittest.main()

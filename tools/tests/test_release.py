"""A release: the same bytes twice, digests that fit, a folder that runs anywhere, and a package that Debian's tools accept."""

from __future__ import annotations

import json
import os
import shutil
import subprocess
import sys
import tarfile
import tempfile
import unittest
from pathlib import Path
from unittest import mock

sys.dont_write_bytecode = True
TOP = Path(__file__).resolve().parents[2]
sys.path += [str(TOP / "tools"), str(TOP / "tools" / "launcher")]

import kept  # noqa: E402
from releasing import command, contents, debian, origin, tree  # noqa: E402
from releasing.refusal import Refused  # noqa: E402

TIME = 1_700_000_000
COMMIT = "0123456789abcdef0123456789abcdef01234567"
ONE_STORE = "share/doc/hippo/examples/one_store/one_store"
WHO = {"DEBFULLNAME": "A Person", "DEBEMAIL": "person@example.test"}


def program() -> Path | None:
    """A built hippo: the one that HIPPO_PROGRAM names, or the proved one."""
    named = os.environ.get("HIPPO_PROGRAM")
    path = Path(named) if named else TOP / "out" / "hippo"
    is_built = path.is_file() and path.read_bytes()[:4] == b"\x7fELF"
    return path if is_built else None


class Releases(unittest.TestCase):
    """The files of a release of a built program."""

    def setUp(self) -> None:
        """Makes a room, and says what the release is of."""
        found = program()
        if found is None:
            self.skipTest("hippo is not built")
        room = tempfile.TemporaryDirectory()
        self.addCleanup(room.cleanup)
        self.room = Path(room.name)
        self.origin = origin.Origin(found, "1.2.3", COMMIT, TIME, "some toolchain")

    def make(self, name: str, with_package: bool = False) -> Path:
        """The folder with the files of a release."""
        out = self.room / name
        out.mkdir()
        command.make(self.origin, out, with_package)
        return out

    def unpacked(self, out: Path) -> Path:
        """The folder of the release, taken from its archive."""
        with tarfile.open(out / f"{self.origin.name}.tar.gz") as archive:
            archive.extractall(self.room, filter="data")  # type: ignore[call-arg]  # mypy knows an older tarfile
        return self.room / self.origin.name

    def run_in(self, folder: Path, *words: str) -> subprocess.CompletedProcess[str]:
        """Runs a command of the release with no variable that could lead it elsewhere."""
        environment = {"PATH": "/usr/sbin:/usr/bin:/sbin:/bin", "HOME": str(self.room)}
        return subprocess.run(words, cwd=folder, env=environment, capture_output=True, text=True, check=False)

    def test_the_same_program_gives_the_same_bytes(self) -> None:
        one, other = self.make("one"), self.make("other")
        names = sorted(path.name for path in one.iterdir())
        self.assertEqual(names, ["SHA256SUMS", f"{self.origin.name}.spdx.json", f"{self.origin.name}.tar.gz"])
        for name in names:
            self.assertEqual((one / name).read_bytes(), (other / name).read_bytes(), name)

    def test_the_archive_names_nobody_and_no_time_of_its_own(self) -> None:
        with tarfile.open(self.make("one") / f"{self.origin.name}.tar.gz") as archive:
            for member in archive:
                self.assertEqual(
                    (member.mtime, member.uid, member.gid, member.uname, member.gname),
                    (TIME, 0, 0, "", ""),
                    member.name,
                )
                self.assertIn(member.mode, (0o644, 0o755), member.name)
                self.assertTrue(member.isfile() or member.isdir(), member.name)

    def test_the_digests_fit_and_see_a_changed_file(self) -> None:
        out = self.make("one")
        self.assertEqual(self.run_in(out, "sha256sum", "--strict", "--check", "SHA256SUMS").returncode, 0)
        folder = self.unpacked(out)
        self.assertEqual(self.run_in(folder, "sha256sum", "--strict", "--check", tree.SUMS).returncode, 0)
        with (folder / "lib/hippo/hippo_c/answer.py").open("a", encoding="utf-8") as file:
            file.write("\n")
        self.assertNotEqual(self.run_in(folder, "sha256sum", "--strict", "--check", tree.SUMS).returncode, 0)

    def test_the_folder_runs_where_it_is_unpacked(self) -> None:
        folder = self.unpacked(self.make("one"))
        ran = self.run_in(folder, "bin/hippo", "check", f"{ONE_STORE}.ll", f"{ONE_STORE}.trace")
        self.assertEqual((ran.returncode, ran.stderr), (0, "reports 1\n"))
        ran = self.run_in(folder, "bin/hippo", "--version")
        self.assertEqual(ran.stdout.splitlines()[:2], ["hippo 1.2.3", f"commit: {COMMIT}"])
        self.assertIn("repair  writes the repaired program", self.run_in(folder, "bin/hippo", "--help").stdout)
        moved = folder.rename(self.room / "else where")
        self.assertEqual(
            self.run_in(moved, "bin/hippo", "check", f"{ONE_STORE}.ll", f"{ONE_STORE}.trace").returncode, 0
        )
        ran = self.run_in(moved, "bin/hippo-c", "install", str(self.room / "prefix"))
        self.assertEqual(ran.returncode, 0, ran.stderr)
        self.assertEqual(self.run_in(self.room, "prefix/bin/hippo", "--version").stdout.splitlines()[0], "hippo 1.2.3")

    def test_the_contents_list_each_file(self) -> None:
        out = self.make("one")
        folder = self.unpacked(out)
        document = json.loads((out / f"{self.origin.name}.spdx.json").read_text(encoding="utf-8"))
        listed = {file["fileName"]: file["checksums"][0]["checksumValue"] for file in document["files"]}
        self.assertEqual(listed, {f"./{name}": tree.digest_of(folder / name) for name in tree.files_of(folder)})
        names = [part["name"] for part in document["packages"]]
        self.assertEqual(names[0], "hippo")
        self.assertTrue({"std", "indexmap", "clap"} <= set(names), names)
        marks = [entry["SPDXID"] for entry in [*document["packages"], *document["files"]]]
        self.assertEqual(len(marks), len(set(marks)))

    @unittest.skipUnless(shutil.which("dpkg-deb"), "dpkg-deb is not installed")
    def test_a_package_installs_runs_and_leaves(self) -> None:
        with mock.patch.dict(os.environ, WHO):
            one, other = self.make("one", True), self.make("other", True)
        name = "hippo_1.2.3_amd64.deb"
        self.assertEqual((one / name).read_bytes(), (other / name).read_bytes())
        root = self.room / "root"
        for folder in ("var/lib/dpkg/updates", "var/lib/dpkg/info", "var/log"):
            (root / folder).mkdir(parents=True)
        for file in ("status", "available"):
            (root / "var/lib/dpkg" / file).touch()
        dpkg = (
            "fakeroot",
            "dpkg",
            f"--root={root}",
            "--force-not-root",
            "--force-depends",
            "--force-script-chrootless",
            "--log=/dev/null",
        )
        if shutil.which("fakeroot") is None:
            self.skipTest("fakeroot is not installed")
        ran = self.run_in(one, *dpkg, "--install", name)
        self.assertEqual(ran.returncode, 0, ran.stderr)
        installed = root / "usr"
        ran = self.run_in(installed, "bin/hippo", "check", f"{ONE_STORE}.ll", f"{ONE_STORE}.trace")
        self.assertEqual((ran.returncode, ran.stderr), (0, "reports 1\n"))
        self.assertEqual(self.run_in(one, *dpkg, "--purge", "hippo").returncode, 0)
        self.assertFalse(installed.exists() and tree.files_of(installed))

    @unittest.skipUnless(shutil.which("lintian"), "lintian is not installed")
    def test_lintian_finds_no_error(self) -> None:
        with mock.patch.dict(os.environ, WHO):
            out = self.make("one", True)
        ran = self.run_in(out, "lintian", "--fail-on", "error", "hippo_1.2.3_amd64.deb")
        self.assertEqual(ran.returncode, 0, ran.stdout)


class Refusals(unittest.TestCase):
    """What no release is made from."""

    def repository(self, version: str, heading: str) -> Path:
        """A folder with a version and a list of changes."""
        room = tempfile.TemporaryDirectory()
        self.addCleanup(room.cleanup)
        (Path(room.name) / "VERSION").write_text(f"{version}\n", encoding="utf-8")
        (Path(room.name) / "CHANGELOG.md").write_text(f"# Changes\n\n{heading}\n", encoding="utf-8")
        return Path(room.name)

    def test_version_and_changes_agree(self) -> None:
        self.assertEqual(origin.read_version(self.repository("1.2.3", "## 1.2.3")), "1.2.3")
        for version, heading in (("1.2.3", "## 1.2.4"), ("1.2.3", ""), ("1.2", "## 1.2"), ("", "## 1.2.3")):
            with self.subTest(version=version, heading=heading), self.assertRaises(Refused):
                origin.read_version(self.repository(version, heading))

    def test_the_versions_of_this_repository_agree(self) -> None:
        ran = subprocess.run([TOP / "hippo", "--version"], capture_output=True, text=True, check=True)
        self.assertEqual(ran.stdout.splitlines()[0], f"hippo {origin.read_version(TOP)}")

    def test_the_time_of_the_files(self) -> None:
        folder = self.repository("1.2.3", "## 1.2.3")
        with mock.patch.dict(os.environ, {"SOURCE_DATE_EPOCH": "17"}):
            self.assertEqual(origin.time_of(folder), 17)
        with mock.patch.dict(os.environ, {"SOURCE_DATE_EPOCH": "soon"}), self.assertRaises(Refused):
            origin.time_of(folder)
        with mock.patch.dict(os.environ, {"GIT_CEILING_DIRECTORIES": str(folder.parent)}), self.assertRaises(Refused):
            os.environ.pop("SOURCE_DATE_EPOCH", None)
            origin.time_of(folder)

    def test_a_program_that_is_not_proved_is_refused(self) -> None:
        with mock.patch.object(kept.Kept, "is_made_from", return_value=False), self.assertRaisesRegex(
            Refused, "not proved"
        ):
            origin.origin_of(TOP)

    def test_a_package_names_who_answers_for_it(self) -> None:
        for given in (
            {"DEBFULLNAME": "A Person", "DEBEMAIL": ""},
            {"DEBFULLNAME": "", "DEBEMAIL": "a@b.test"},
            {"DEBFULLNAME": "A Person", "DEBEMAIL": "nobody"},
        ):
            with self.subTest(given), mock.patch.dict(os.environ, given), self.assertRaises(Refused):
                debian.maintainer()

    def test_libraries_are_those_of_the_toolchain(self) -> None:
        text = "# x\nlow: clap\nhigh: low hex # no\nhippo: high low\n"
        self.assertEqual(contents.kit_crates(text), ["clap", "core", "hex", "std"])


if __name__ == "__main__":
    unittest.main()

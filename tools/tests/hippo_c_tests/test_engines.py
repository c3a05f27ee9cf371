"""Engines in C++ in the styles of the field: hippo-c finds nothing in them, names the bug that is planted by -DBUG=N, and its own fix
leaves no report. The marks `// bug N` in an engine stand at the lines of the stores."""
import os
import shutil

from .common import Case

ENGINES = os.path.join(os.path.dirname(os.path.abspath(__file__)), "engines")


class Engines(Case):
    """Three engines with three bugs each."""

    def take_engine(self, name: str) -> list[str]:
        """Copies an engine; the arguments of hippo-c after its command."""
        for file in (name, "flushing.h"):
            shutil.copy(os.path.join(ENGINES, file), self.folder)
        return ["--single-thread", "--no-source", name]

    def is_clean(self, name: str) -> None:
        """There is no report, and a run from each image that is tried ends as it should."""
        words = self.take_engine(name)
        ran = self.hippo_c("check", *words, "--", "-std=c++20", code=0)
        self.assertRegex(ran.stdout, r"(?m)^0 reports in 0 groups")
        ran = self.hippo_c("crash", *words, "--runs", "2000", "--", "-std=c++20", code=0)
        self.assertRegex(ran.stdout, r"; 0 fail, by 0 causes")

    def finds(self, name: str, number: int) -> None:
        """The line of a bug is reported, and with the suggestions nothing is."""
        words = self.take_engine(name)
        marks = [line for line, text in enumerate(self.read(name).split("\n"), 1) if f"// bug {number}" in text]
        self.assertTrue(marks)
        ran = self.hippo_c("check", *words, "--verify-fix", "--", "-std=c++20", f"-DBUG={number}", code=1)
        self.assertTrue(any(f"{name}:{line}:" in ran.stdout for line in marks), ran.stdout)
        self.assertIn("with the suggestions applied: 0 reports", ran.stdout)

    def test_buckets(self) -> None:
        """Buckets of one cache line."""
        self.is_clean("buckets.cpp")

    def test_bugs_of_buckets(self) -> None:
        """A value after its key, a bucket that is linked before it is durable, a size that is not flushed."""
        for number in (1, 2, 3):
            self.finds("buckets.cpp", number)
        ran = self.hippo_c("check", *self.take_engine("buckets.cpp"), "--", "-std=c++20", "-DBUG=1", code=1)
        self.assertIn("note: 'store::Table<..>::put' is called here, by 'main'", ran.stdout)

    def test_shifting_tree(self) -> None:
        """Inserts that shift."""
        self.is_clean("shifting_tree.cpp")

    def test_bugs_of_the_shifting_tree(self) -> None:
        """A shift over the end of a cache line, the new entry, a page that is linked before it is durable."""
        for number in (1, 2, 3):
            self.finds("shifting_tree.cpp", number)

    def test_radix_tree(self) -> None:
        """Nodes that SSE2 searches."""
        self.is_clean("radix_tree.cpp")

    def test_bugs_of_the_radix_tree(self) -> None:
        """A child after its key, a larger node that is linked before it is durable, a count that is not flushed."""
        for number in (1, 2, 3):
            self.finds("radix_tree.cpp", number)

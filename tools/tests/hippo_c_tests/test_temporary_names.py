"""The temporary names of files that a command writes."""
import os
import tempfile
import unittest
from unittest import mock

from .common import Case

from hippo_c import writing
from hippo_c.trouble import Trouble


class TemporaryNames(Case):
    """The name of a file that is not complete yet."""

    def test_it_follows_no_link(self) -> None:
        """Whatever name is chosen first, with a link there another one is taken."""
        self.write("victim", "precious\n")
        names = iter(["planted", "planted", "free"])
        os.symlink("victim", self.path("out.planted.part"))
        with mock.patch.object(tempfile, "_get_candidate_names", lambda: names), writing.whole_file(
            self.path("out")
        ) as file:
            self.assertEqual(os.path.basename(file.name), "out.free.part")
            file.write(b"new\n")
        self.assertEqual((self.read("victim"), self.read("out")), ("precious\n", "new\n"))
        self.assertFalse(os.path.islink(self.path("out")))

    def test_it_is_not_that_of_the_process(self) -> None:
        seen = set()
        for _ in range(4):
            with writing.whole_file(self.path("out")) as file:
                seen.add(os.path.basename(file.name))
                self.assertNotIn(str(os.getpid()), file.name)
        self.assertEqual(len(seen), 4)

    def test_nothing_is_left_after_a_failure(self) -> None:
        self.write("out", "old\n")
        with self.assertRaises(Trouble), writing.output_file(self.path("out")) as file:
            file.write(b"half")
            raise Trouble("a step failed")
        self.assertEqual((os.listdir(self.folder), self.read("out")), (["out"], "old\n"))

    def test_a_long_name_has_a_place(self) -> None:
        name = "n" * 250
        with writing.output_file(self.path(name)) as file:
            file.write(b"whole")
        self.assertEqual(self.read(name), "whole")


if __name__ == "__main__":
    unittest.main()

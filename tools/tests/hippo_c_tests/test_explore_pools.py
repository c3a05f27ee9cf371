"""The bytes of the files of pools in the search of explore."""
import os
import unittest

from .explore_case import BugCase

from hippo_c.crash_answers import constant_of
from hippo_c.program import Program

VERSIONS = """#include <fcntl.h>
#include <hippo.h>
#include <sys/mman.h>
#include <unistd.h>

struct header {
  long version;
  _Alignas(64) long uses;
  _Alignas(64) long old_uses;
};

int main(void) {
  int file = open("data.pool", O_RDWR);
  if (file < 0) return 1;
  struct header *header = mmap(0, 4096, PROT_READ | PROT_WRITE, MAP_SHARED, file, 0);
  if (header->version == 2) {
    header->uses++;
    pmem_persist(&header->uses, 8);
  } else if (header->version == 1) {
    header->old_uses++; // no flush
  }
  if (header->version == 3) {
    header->uses += read_i64();
    pmem_persist(&header->uses, 8);
    header->old_uses = header->uses;
    pmem_persist(&header->old_uses, 8);
  }
  if (header->old_uses > header->uses) __builtin_trap();
  return 0;
}
"""
LOWERING = ("--file-calls", "--single-thread", "--pool", "data.pool=4K,data.bin")


class Pools(BugCase):
    """A program that opens a file which its author made with version 2."""

    def setUp(self) -> None:
        """Writes the program and its file."""
        super().setUp()
        self.write("versions.c", VERSIONS)
        with open(self.path("data.bin"), "wb") as file:
            file.write((2).to_bytes(8, "little").ljust(4096, b"\0"))

    def test_the_search_changes_bytes(self) -> None:
        ran = self.hippo_c(
            "explore", "versions.c", *LOWERING, "--runs", "4000", "--crashes", "1", "--pools", "found", code=1
        )
        line = VERSIONS[: VERSIONS.index("// no flush")].count("\n") + 1
        self.assertRegex(ran.stdout, rf"versions\.c:{line}:\d+: warning: store of 8 bytes to")
        again = self.group_in(r"see it again: hippo-c (check [^\n]*)", ran.stdout).split(" ")
        self.assertIn(f'--pool=data.pool=4K,{os.path.join("found", "1.data.bin")}', again)
        self.assertIn(f"versions.c:{line}:", self.hippo_c(*again, code=1).stdout)
        self.hippo_c("check", "versions.c", *LOWERING, code=0)

    def test_without_a_folder_the_bytes_are_counted(self) -> None:
        ran = self.hippo_c("explore", "versions.c", *LOWERING, "--runs", "4000", "--crashes", "0", code=1)
        self.assertRegex(ran.stdout, r"see it again: with --pools FOLDER, for \d+ other bytes? of the pools")

    def test_constants_of_images(self) -> None:
        for content in (
            b"\0" * 10,
            b"a\xff",
            b"a" + b"\0" * 63 + b"b",
            b"a" + b"\0" * 64 + b"b\n",
            b"\0" * 200 + b"\r",
        ):
            text = f'@g = global {constant_of(bytearray(content))}, section ".pm", align 64\ndefine i32 @main() {{\nentry:\n  ret i32 0\n}}\n'
            self.write("a.ll", text)
            ran = self.hippo("record", "a.ll")
            self.assertEqual(ran.returncode, 0, ran.stderr)
            image = bytearray(-(-len(content) // 64) * 64)
            for entry in ran.stdout.split("\n"):
                if entry.startswith("IMAGE"):
                    _, address, digits = entry.split(";")
                    at = int(address, 16) - (1 << 32)
                    image[at : at + 64] = bytes.fromhex(digits)
            self.assertEqual(bytes(image[: len(content)]), content)
            self.assertEqual(Program(text).persistent[0].size, len(content))


if __name__ == "__main__":
    unittest.main()

"""The command pool: the bytes of a pool after a run and after a power cut, and runs that start from them."""
import struct

from .common import Case

PROGRAM = """#include <hippo.h>
#include <fcntl.h>
#include <sys/mman.h>
#include <unistd.h>
int main(void) {
  int file = open("data/a.pool", O_RDWR | O_CREAT, 0600);
  if (ftruncate(file, 4096)) return 1;
  long *kept = mmap(0, 4096, PROT_READ | PROT_WRITE, MAP_SHARED, file, 0);
  kept[0] += 1;
  pmem_persist(&kept[0], sizeof kept[0]);
  kept[9] += 10;
  print_i64(kept[0] * 100 + kept[9]);
  return 0;
}
"""
READER = """#include <hippo.h>
#include <fcntl.h>
#include <unistd.h>
PERSISTENT long kept;
int main(void) {
  unsigned char bytes[64];
  long length = read(open("a.pool", O_RDONLY), bytes, sizeof bytes);
  print_i64(length);
  for (long i = 0; i < length; i++) print_i64(bytes[i]);
  kept = 0;
  pmem_persist(&kept, sizeof kept);
  return 0;
}
"""
WORDS = ("a.c", "--file-calls", "--pool", "a.pool=8192")


class Pool(Case):
    """Pools as files."""

    def words_of(self, name: str) -> list[int]:
        """The bytes of a file, by words."""
        with open(self.path(name), "rb") as file:
            content = file.read()
        self.assertEqual(len(content), 4096)
        return list(struct.unpack("<512q", content))

    def test_a_run_goes_on_where_the_last_one_ended(self) -> None:
        self.write("a.c", PROGRAM)
        ran = self.hippo_c("pool", *WORDS, "-o", "after.pool", "--keep", "kept", code=0)
        self.assertEqual(ran.stdout, "written: after.pool, 4,096 bytes of a.pool when the run ends (stop 0)\n")
        words = self.words_of("after.pool")
        self.assertEqual((words[0], words[9], sum(words)), (1, 10, 11))
        ran = self.hippo_c("run", "a.c", "--file-calls", "--pool", "a.pool=8192,after.pool", code=0)
        self.assertEqual(ran.stdout, "220\n")
        last = len(self.read("kept/program.trace").splitlines())
        ran = self.hippo_c("pool", *WORDS, "-o", "cut.pool", "--entries", str(last), code=0)
        self.assertIn(f"4,096 bytes of a.pool after a power cut at entry {last}\n", ran.stdout)
        self.assertEqual((self.words_of("cut.pool")[0], sum(self.words_of("cut.pool"))), (1, 1))

    def test_a_file_of_any_length(self) -> None:
        """The bytes of a FILE are those of the pool, and a FILE that is longer than the pool is refused."""
        self.write("a.c", READER)
        content = bytes(range(1, 14))
        with open(self.path("some"), "wb") as file:
            file.write(content)
        words = ("a.c", "--file-calls", "--pool", "a.pool=16,some")
        ran = self.hippo_c("run", *words, code=0)
        self.assertEqual(list(map(int, ran.stdout.split())), [len(content), *content])
        for command in ("run", "crash"):
            self.refused(
                "not lowered:\nlower: some has more bytes than the pool a.pool\n",
                command,
                *words[:-1],
                "a.pool=12,some",
            )

    def test_words_that_it_refuses(self) -> None:
        self.write("a.c", PROGRAM)
        for words, reason in (
            (("a.c", "--file-calls"), "the program has no pool"),
            ((*WORDS, "--of", "c.pool"), "--of c.pool: no such pool; there is a.pool"),
            ((*WORDS, "--pool", "b.pool=4096"), "which pool: a.pool, b.pool?"),
            ((*WORDS, "--pick", "0:1"), "--pick needs one entry: --entries N"),
        ):
            self.refused(reason, "pool", *words, "-o", "x")
        self.refused(
            "the file b.pool does not exist when the run ends",
            "pool",
            *WORDS,
            "--pool",
            "b.pool=4096",
            "--of",
            "b.pool",
            "-o",
            "x",
        )

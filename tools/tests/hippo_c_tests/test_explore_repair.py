"""One repair for all that explore found: explore, repair, explore ends without a new report."""
import json
import unittest
from typing import Any

from .explore_case import BugCase

COUNTING = """// A redo log. Recovery counts what it puts back, and forgets to flush the count: only runs after a power cut show it.
#include <hippo.h>

PERSISTENT struct {
  _Alignas(64) long is_valid;
  _Alignas(64) long value;
  _Alignas(64) long cell;
  _Alignas(64) long recoveries;
} s;

static void empty(void) {
  s.is_valid = 0;
  pmem_persist(&s.is_valid, 8);
}

static void recover(void) {
  if (!s.is_valid) return;
  s.cell = s.value;
  pmem_persist(&s.cell, 8);
  s.recoveries++;
  empty();
}

int main(void) {
  recover();
  for (long n; (n = read_i64());) {
    s.value = n;
    pmem_persist(&s.value, 8);
    s.is_valid = 1;
    pmem_persist(&s.is_valid, 8);
    s.cell = n;
    pmem_persist(&s.cell, 8);
    empty();
  }
  return 0;
}
"""
# A tree whose rare branches lack flushes, which the given input does not take.
TREE = """#include <hippo.h>

struct node {
  long key;
  struct node *below[2];
};

PERSISTENT struct {
  struct node *root;
  long used;
  struct node nodes[32];
} tree;

static void insert(long key) {
  struct node **place = &tree.root;
  while (*place && (*place)->key != key) place = &(*place)->below[key > (*place)->key];
  if (*place || tree.used == 32) return;
  struct node *node = &tree.nodes[tree.used++];
  node->key = key;
  pmem_persist(node, sizeof *node);
  if (key < 100) pmem_persist(&tree.used, sizeof tree.used);
  *place = node;
  if (place == &tree.root) pmem_persist(place, sizeof *place);
}

int main(void) {
  for (long key; (key = read_i64());) insert(key);
  return 0;
}
"""


class Loop(BugCase):
    """Programs with bugs that their given inputs do not show."""

    def explored(self, file: str, numbers: tuple[str, ...], seed: int, *words: str, code: int) -> dict[str, Any]:
        """The answer of explore."""
        self.hippo_c(
            "explore",
            file,
            "--input",
            *numbers,
            "--seed",
            str(seed),
            "--runs",
            "3000",
            "--json",
            "a.json",
            *words,
            code=code,
        )
        found: dict[str, Any] = json.loads(self.read("a.json"))
        return found

    def loop(self, file: str, *numbers: str) -> tuple[dict[str, Any], str]:
        """Explores, repairs for all that was found, and explores the repaired program from another seed: what was found, and the corpus."""
        found = self.explored(file, numbers, 1, "--corpus", "corpus", code=1)
        repaired = self.hippo_c("repair", file, "--inputs", "corpus", "-o", "repaired.ll", code=0).stdout
        self.assertNotRegex(repaired, r"reports? before, [1-9]")
        after = self.explored("repaired.ll", numbers, 2, code=0)
        self.assertEqual([after["inputs"], after["after_cuts"], after["failures"]], [[], [], []])
        return found, self.read("corpus")

    def test_an_undo_log(self) -> None:
        self.take("from_c", "undo.c")
        self.assertTrue(self.loop("undo.c", "1", "0", "1", "5")[0]["inputs"])

    def test_rare_branches_of_a_tree(self) -> None:
        self.write("tree.c", TREE)
        found, _ = self.loop("tree.c", "5", "0")
        lines = {group["store"]["line"] for item in found["inputs"] for group in item["groups"]}
        self.assertEqual(lines, {TREE[: TREE.index(text)].count("\n") + 1 for text in ("tree.used++", "*place = node")})

    def test_a_recovery_that_only_power_cuts_reach(self) -> None:
        self.write("counting.c", COUNTING)
        found, corpus = self.loop("counting.c", "5", "0")
        self.assertEqual(found["inputs"], [])
        line = COUNTING[: COUNTING.index("s.recoveries++")].count("\n") + 1
        self.assertEqual(
            [(one["kind"], one["place"]["line"]) for one in found["after_cuts"]], [("missing-flush", line)]
        )
        self.assertRegex(corpus, r"(?m)^5 0; \d+ \d+:\d+$")

    def test_lines_with_power_cuts_are_read_with_care(self) -> None:
        self.write("counting.c", COUNTING)
        for line, text in (
            ("5 0; 0 0:1", "given:1: '0 0:1' is not a power cut"),
            ("5 0;", "given:1: '' is not a power cut"),
            ("5 0; 7 a", "--pick a: not LINE:UPTO"),
            ("5 0; 7 9:9", "given:1: no power cut of this run leaves that image"),
            ("5 0; 700 0:1", "given:1: no power cut of this run leaves that image"),
        ):
            self.write("given", f"{line}\n")
            self.refused(text, "repair", "counting.c", "--inputs", "given", "-o", "r.ll")
        self.write("given", "5 0\n5 0; 7 0:1\n")
        checked = self.hippo_c("check", "counting.c", "--inputs", "given", code=0)
        self.assertNotIn("input 2", checked.stdout)


if __name__ == "__main__":
    unittest.main()

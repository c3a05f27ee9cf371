"""The answers about C++ in each form: names, places in templates and headers, diffs, SARIF, pages, crash images, object files, and an
installation."""
import json
import re
import os

from .common import Case, built_program

TABLE = """#include <hippo.h>
namespace store {
template <class Key, class Value, unsigned long Size> class Table {
  struct Cell {
    alignas(64) Key key;
    alignas(64) Value value;
  } cells[Size];

public:
  constexpr Table() : cells{} {}
  void put(Key key, Value value) {
    Cell &cell = cells[key % Size];
    cell.value = value;
    cell.key = key;
    pmem_persist(&cell.key, sizeof cell.key);
  }
  bool has(Key key) const { return cells[key % Size].key == key; }
  Value get(Key key) const { return has(key) ? cells[key % Size].value : 0; }
};
}
"""
MAIN = """#include "table.h"
PERSISTENT static constinit store::Table<unsigned long, unsigned long, 8> table;
int main() {
  unsigned long key = read_i64();
  if (table.has(9) && table.get(9) != 90) __builtin_trap();
  table.put(9, 90);
  pm_assert(&table, sizeof table);
  table.put(key, 10 * key);
  print_i64(table.get(key));
  return 0;
}
"""
TEXT = """#include <hippo.h>
#include <string>
PERSISTENT static long kept;
int main() {
  kept = std::to_string(read_i64()).size();
  pmem_persist(&kept, sizeof kept);
  return 0;
}
"""
FULL = "store::Table<unsigned long, unsigned long, 8ul>::put"
FLAGS = ("--", "-std=c++20")


class Answers(Case):
    """One program, whose header forgets the flush of the value of a cell."""

    def setUp(self) -> None:
        """Writes the program."""
        super().setUp()
        self.write("table.h", TABLE)
        self.write("main.cpp", MAIN)
        self.line = 1 + TABLE.split("\n").index("    cell.value = value;")

    def test_text_diff_page_and_sarif(self) -> None:
        """The place is that in the header, names are cut in lines of text and whole in JSON, and the diff builds."""
        words = ["--fix", "--diff", "fix.diff", "--html", "page.html", "--sarif", "a.sarif", "--json", "a.json"]
        ran = self.hippo_c("check", *words, "main.cpp", "--input", "3", *FLAGS, code=1)
        stored = f"./table.h:{self.line}:16: warning: store of 8 bytes to 'table.cells[1].value'"
        self.assertIn(f"{stored} is not durable at the check in main.cpp:7", ran.stdout)
        self.assertIn("main.cpp:6:9: note: 'store::Table<..>::put' is called here, by 'main'", ran.stdout)
        self.assertIn("'pmem_flush(&cell.value, sizeof(cell.value));' after this statement", ran.stdout)
        group = json.loads(self.read("a.json"))["inputs"][0]["groups"][0]
        self.assertEqual(
            {name: group["store"][name] for name in ("file", "line", "function")},
            {"file": "./table.h", "line": self.line, "function": FULL},
        )
        self.assertTrue(group["suggestion"]["edits"])
        result = json.loads(self.read("a.sarif"))["runs"][0]["results"][0]
        region = result["locations"][0]["physicalLocation"]
        self.assertEqual((region["artifactLocation"]["uri"], region["region"]["startLine"]), ("./table.h", self.line))
        self.assertTrue(result["fixes"])
        page = self.read("page.html")
        self.assertIn(
            "constinit store::Table&lt;unsigned long, unsigned long, 8&gt; table;", re.sub("<[^<>]*>", "", page)
        )
        self.assertNotIn("store::Table<", page)
        self.assertEqual(self.command("sh", "-c", "patch -s -p0 <fix.diff").returncode, 0)
        self.assertRegex(self.hippo_c("check", "main.cpp", "--input", "3", *FLAGS, code=0).stdout, r"(?m)^0 reports")

    def test_crash(self) -> None:
        """A crash image in which the key is durable and the value is not fails, at the store's line in the header."""
        ran = self.hippo_c("crash", "main.cpp", "--input", "3", *FLAGS, code=1)
        self.assertIn(f"./table.h:{self.line}:16: note: ", ran.stdout)
        self.assertIn("'table.cells[1].value'", ran.stdout)

    def test_the_object_file_says_cpp(self) -> None:
        """The debug information of a repaired program names the language, and the program prints what the native one does."""
        self.hippo_c("repair", "main.cpp", "-g", "-o", "main.ll", "--input", "3", *FLAGS, code=0)
        self.assertIn("language: DW_LANG_C_plus_plus_14", self.read("main.ll"))
        self.assertIn('name: "store::Table', self.read("main.ll"))

    def test_an_installation_checks_cpp(self) -> None:
        """The installed program finds its runtime and its headers."""
        built = built_program()
        if not built:
            self.skipTest("hippo is not built")
        self.hippo_c("install", "here", "--program", built, code=0)
        environment = {"PATH": f'{self.path("here/bin")}:{os.environ["PATH"]}', "HOME": self.folder}
        self.write("text.cpp", TEXT)
        ran = self.command("hippo-c", "check", "text.cpp", "--input", "30", env=environment)
        self.assertEqual(ran.returncode, 0, ran.stdout + ran.stderr)

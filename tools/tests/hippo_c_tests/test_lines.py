"""The map from instructions to C: through inlining, macros, included files, levels, odd names."""
import os
import re
import subprocess
import sys

from .common import TOOLS, Case

from hippo_c.places import Places
from lowering import lines
from lowering.lines import Frame


class Comments(Case):
    """Places as comments, written and read."""

    def test_read_what_is_shown(self) -> None:
        for name in ("a.c", "/x/y-z.c", "my ring.c", 'a "b".c', "a:1:2 < b.c", "back\\slash.c", "ö.c", "tab\t.c"):
            frames = [Frame(name, 3, 5, "f"), Frame("b.c", 0, 0, None)]
            self.assertEqual(lines.read(lines.show(frames)), frames)
            self.assertNotIn("\n", lines.show(frames))

    def test_other_comments_are_no_places(self) -> None:
        for text in ("added", "", "a.c:1", "a.c:1:2 and more", "preds = %entry"):
            self.assertEqual(lines.read(text), [])


class Map(Case):
    """The places of stores in lowered texts."""

    def stores(self, *words: str) -> list[tuple[str, list[tuple[str, int, int, str]]]]:
        """The function and the places of each store of the user's, in the order of the text."""
        program = self.program(*words)
        places = Places(program)
        return [
            (site[0], [(place.file, place.line, place.column, place.function) for place in places.of(site)])
            for site, instruction in program.sites()
            if instruction.text.startswith("store ") and not instruction.added
        ]

    def test_the_text_is_the_same_without_comments(self) -> None:
        name = self.take("from_c", "log.c")
        plain = subprocess.run(
            [sys.executable, f"{TOOLS}/lower", name], cwd=self.folder, capture_output=True, text=True
        )
        self.assertEqual(re.sub(r" ; .*", "", self.lower(name)), plain.stdout)

    def test_columns_tell_the_stores_of_a_line_apart(self) -> None:
        self.write(
            "a.c", "#include <hippo.h>\nPERSISTENT long a, b;\nint main(void) { a = read_i64(); b = 2; return 0; }\n"
        )
        for level in ("-O0", "-O1", "-O2"):
            found = [place for name, place in self.stores(level, "a.c") if place[0][2] != 1]
            self.assertEqual([place[0][1:3] for place in found][-2:], [(3, 20), (3, 36)], level)

    def test_inlined_calls_have_all_their_places(self) -> None:
        self.write(
            "pair.h",
            "struct pair { long a, b; };\n__attribute__((always_inline)) static inline\n"
            "void set(struct pair *p, long v) {\n  p->a = v;\n}\n",
        )
        self.write(
            "a.c",
            '#include <hippo.h>\n#include "pair.h"\nPERSISTENT struct pair p;\n'
            "void twice(long v) {\n  set(&p, v);\n  pm_assert(&p, 8);\n}\nint main(void) { twice(read_i64()); return 0; }\n",
        )
        for level in ("-O1", "-O2"):
            name, places = self.stores(level, "a.c")[0]
            self.assertEqual(name, "twice")
            self.assertEqual(
                [(file.lstrip("./"), line, function) for file, line, _, function in places],
                [("pair.h", 4, "set"), ("a.c", 5, "twice")],
            )

    def test_a_macro_has_the_place_of_its_use(self) -> None:
        self.write(
            "a.c",
            "#include <hippo.h>\n#define SET(x, v) do { (x) = (v); } while (0)\nPERSISTENT long a;\n"
            "int main(void) {\n  SET(a, read_i64());\n  return 0;\n}\n",
        )
        self.assertEqual(self.stores("a.c")[0][1][0][1:3], (5, 3))

    def test_names_with_blanks_and_quotes(self) -> None:
        name = self.write(
            'my "ring" file.c', "#include <hippo.h>\nPERSISTENT long a;\nint main(void) { a = 1; return 0; }\n"
        )
        self.assertEqual(self.stores(name)[0][1][0][:2], (name, 3))

    def test_a_file_beside_the_folder_has_its_whole_path(self) -> None:
        text = "#include <hippo.h>\nPERSISTENT long a;\nint main(void) { a = 1; return 0; }\n"
        os.makedirs(self.path("one/two"))
        os.makedirs(self.path("one/other"))
        self.write("one/other/a.c", text)
        self.write("one/two/b.c", text)
        beside = self.path("one/other/a.c")
        self.folder = self.path("one/two")
        self.assertEqual(self.stores(beside)[0][1][0][0], os.path.realpath(beside))
        self.assertEqual(self.stores("../other/a.c")[0][1][0][:2], ("../other/a.c", 3))
        self.assertEqual(self.stores("b.c")[0][1][0][0], "b.c")

    def test_helpers_are_marked(self) -> None:
        self.write(
            "a.c",
            "#include <hippo.h>\n#include <string.h>\nPERSISTENT char a[100];\nchar b[100];\n"
            "int main(void) { memcpy(a, b, (size_t)read_i64()); return 0; }\n",
        )
        program = self.program("a.c")
        helpers = [function for function in program.functions.values() if function.added]
        self.assertEqual({function.name_in_c for function in helpers}, {"memcpy"})
        for function in helpers:
            self.assertTrue(all(one.added for block in function.blocks for one in block.instructions))
            self.assertEqual(Places(program).of((function.name, function.blocks[0].label, 0)), [])

    def test_two_files_and_functions_of_one_name(self) -> None:
        self.write(
            "a.c",
            "#include <hippo.h>\nPERSISTENT long a;\nvoid other(void);\n"
            "static void put(void) { a = read_i64(); }\nint main(void) { put(); other(); return 0; }\n",
        )
        self.write(
            "b.c",
            "#include <hippo.h>\nPERSISTENT long b;\n\n\n"
            "static void put(void) { b = read_i64(); }\nvoid other(void) { put(); }\n",
        )
        found = {place[0][:2]: place[0][3] for _, place in self.stores("a.c", "b.c")}
        self.assertEqual(found, {("a.c", 4): "put", ("b.c", 5): "put"})

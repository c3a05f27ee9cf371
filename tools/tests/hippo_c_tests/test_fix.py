"""Suggestions in C: their text, their diff, and that the edited C has nothing left."""
import json
import os

from .common import RING_INPUT, Case

HEAD = "#include <hippo.h>\n#include <string.h>\n"


class Fixes(Case):
    """One program each; the diff is applied by patch, and the result is checked as any other."""

    def fix(self, text: str, *words: str, left: str = "0 reports") -> str:
        """The text with the suggestions applied, which hippo-c checks itself and the test checks again."""
        self.write("a.c", HEAD + text)
        ran = self.hippo_c("check", "a.c", "--verify-fix", "--diff", "a.diff", *words, code=1)
        self.assertIn(f"with the suggestions applied: {left}", ran.stdout)
        self.out = ran.stdout
        if not self.read("a.diff"):
            return self.read("a.c")
        patched = self.command("patch", "-p0", "-i", "a.diff", "-o", "fixed.c", "a.c")
        self.assertEqual(patched.returncode, 0, patched.stdout + patched.stderr)
        if left == "0 reports":
            self.hippo_c("check", "fixed.c", *words, code=0)
        return self.read("fixed.c")

    def test_a_flush_and_a_fence_on_lines_of_their_own(self) -> None:
        fixed = self.fix(
            "PERSISTENT struct { long a, b; } p;\nint main(void) {\n  p.b = read_i64(); // the last\n  return 0;\n}\n",
            "--input",
            "4",
        )
        self.assertIn("  p.b = read_i64(); // the last\n  _mm_clwb(&p.b);\n  _mm_sfence();\n", fixed)
        self.assertIn("a.c:5:7: note: suggestion: add '_mm_clwb(&p.b); _mm_sfence();' after this statement", self.out)

    def test_a_fence_after_the_flush(self) -> None:
        fixed = self.fix("PERSISTENT long a;\nint main(void) {\n  a = 1;\n  _mm_clwb(&a);\n  return 0;\n}\n")
        self.assertIn("  _mm_clwb(&a);\n  _mm_sfence();\n", fixed)

    def test_braces_where_a_statement_stands_alone(self) -> None:
        fixed = self.fix(
            "PERSISTENT long a, b;\nint main(void) {\n  if (read_i64())\n    a = 1;\n  else b = 2;\n  return 0;\n}\n",
            "--input",
            "1",
        )
        self.assertIn("    { a = 1; _mm_clwb(&a); _mm_sfence(); }\n", fixed)

    def test_more_statements_on_the_line(self) -> None:
        fixed = self.fix("PERSISTENT long a, b;\nint main(void) { a = 1; b = 2; return 0; }\n")
        self.assertIn("a = 1; _mm_clwb(&a); _mm_sfence(); b = 2; _mm_clwb(&b); _mm_sfence(); return 0;", fixed)

    def test_the_operand_is_what_stands_there(self) -> None:
        fixed = self.fix(
            "struct node { long key; struct node *next; int k[4]; };\nPERSISTENT struct node nodes[4];\n"
            "static void put(struct node *n, long i) {\n  n->next = &nodes[0];\n  ++n->k[i];\n  n->k[1]--;\n"
            "  n[2] = nodes[0];\n  n[1].key += 2;\n}\nint main(void) {\n  put(&nodes[1], read_i64());\n  return 0;\n}\n",
            "--input",
            "2",
            "-O0",
        )
        for text in (
            "_mm_clwb(&n->next);",
            "_mm_clwb(&n->k[i]);",
            "_mm_clwb(&n->k[1]);",
            "pmem_flush(&n[2], sizeof(n[2]));",
            "_mm_clwb(&n[1].key);",
        ):
            self.assertIn(text, fixed)

    def test_ranges_of_library_calls(self) -> None:
        fixed = self.fix(
            "PERSISTENT char a[300], b[300];\nstatic char text[300];\nint main(void) {\n"
            "  size_t n = (size_t)read_i64();\n  memcpy(a + 3, text + n, n);\n  memset(b, 1, 70);\n  return 0;\n}\n",
            "--input",
            "100",
        )
        self.assertIn("  memcpy(a + 3, text + n, n);\n  pmem_flush(a + 3, n);\n  _mm_sfence();\n", fixed)
        self.assertIn("  pmem_flush(b, 70);\n", fixed)
        self.fix(
            'PERSISTENT char a[300];\nstatic char text[300] = "text";\nint main(void) {\n'
            "  memcpy(a + 3, text, (size_t)read_i64());\n  return 0;\n}\n",
            "--input",
            "200",
            left="32 reports, 1 suggestion left to be made by hand",
        )

    def test_what_has_an_effect_is_not_said_again(self) -> None:
        self.fix(
            "PERSISTENT long a[9];\nint main(void) {\n  long *p = a;\n  for (int i = 0; i < 3; i++)\n    *p++ = read_i64();\n"
            "  return 0;\n}\n",
            "--input",
            "1",
            "2",
            "3",
            "-O0",
            left="3 reports, 1 suggestion left to be made by hand",
        )
        self.assertIn("suggestion (by hand: its address has an effect): flush what this statement stores", self.out)

    def test_heads_of_loops_and_bit_fields_are_left_to_the_hand(self) -> None:
        self.fix(
            "PERSISTENT long a;\nint main(void) {\n  for (a = 0; a < 3; a++)\n    print_i64(a);\n  return 0;\n}\n",
            "-O0",
            left="1 report, 1 suggestion left to be made by hand",
        )
        self.assertIn(
            "suggestion (by hand: the statement stands in a condition or in the head of a loop): add ", self.out
        )
        self.fix(
            "PERSISTENT struct { unsigned f : 3, g : 5; } a;\nint main(void) {\n  a.f = 1;\n  return 0;\n}\n",
            left="1 report, 1 suggestion left to be made by hand",
        )
        self.assertIn(
            "suggestion (by hand: clang says: address of bit-field requested): flush what this statement stores",
            self.out,
        )

    def test_a_macro_at_the_left_side(self) -> None:
        fixed = self.fix(
            "#define AT(i) cells[(i)].v\nPERSISTENT struct { long v, far[9]; } cells[4];\nint main(void) {\n"
            "  AT(read_i64() & 3) = 7;\n  AT(2) = 7;\n  return 0;\n}\n",
            "--input",
            "1",
            "-O0",
            left="1 report, 1 suggestion left to be made by hand",
        )
        self.assertIn("  AT(2) = 7;\n  _mm_clwb(&AT(2));\n", fixed)

    def test_macros_are_copied_as_they_stand(self) -> None:
        fixed = self.fix(
            "#define N 128\n#define HALF(n) ((n) / 2)\n#define MIN(a, b) ((a) < (b) ? (a) : (b))\n"
            "PERSISTENT char first[N], second[N];\nPERSISTENT long *head, x;\nint main(void) {\n  long n = read_i64();\n"
            "  memset(first + HALF(4), 1, HALF (n));\n  memcpy(second, first, MIN(n, N));\n"
            "  if (head == NULL)\n    head = &x;\n  if (HALF(n) == N) return 1; else if (MIN(n, 3)) x = N;\n  return 0;\n}\n",
            "--input",
            "100",
            "-O0",
        )
        for text in (
            "  pmem_flush(first + HALF(4), HALF (n));\n",
            "  pmem_flush(second, MIN(n, N));\n",
            "    { head = &x; _mm_clwb(&head); _mm_sfence(); }\n",
            "else if (MIN(n, 3)) { x = N; _mm_clwb(&x); _mm_sfence(); }\n",
        ):
            self.assertIn(text, fixed)

    def test_a_macro_that_makes_the_call_is_left_to_the_hand(self) -> None:
        self.fix(
            "#define CLEAR(p, n) memset(p, 0x11, n)\n#define PAIR b, 1\nPERSISTENT char a[64], b[64];\nint main(void) {\n"
            "  size_t n = (size_t)read_i64();\n  CLEAR(a, n);\n  memset(PAIR, n);\n  return 0;\n}\n",
            "--input",
            "64",
            "-O0",
            left="16 reports, 2 suggestions left to be made by hand",
        )
        self.assertIn("suggestion (by hand: a macro makes the call): ", self.out)
        self.assertIn("suggestion (by hand: clang says: ", self.out)

    def test_a_flushing_copy_of_a_function(self) -> None:
        fixed = self.fix(
            "struct cell { long a, b; };\nPERSISTENT struct cell kept;\nvoid fill(struct cell *c, long v);\n"
            "static void inner(struct cell *c) { c->b = 9; }\n"
            "int main(void) {\n  struct cell own;\n  long sum = 0;\n  for (int i = 0; i < 3; i++) {\n    fill(&own, i);\n"
            "    sum += own.a + own.b;\n  }\n  fill(&kept, sum);\n  print_i64(kept.a);\n  return 0;\n}\n"
            "void fill(struct cell *c, long v) {\n  c->a = v;\n  inner(c);\n}\n",
            "-O0",
        )
        self.assertIn("void fill_flushed(struct cell *c, long v);\n", fixed)
        self.assertIn("  fill_flushed(&kept, sum);\n  _mm_sfence();\n", fixed)
        self.assertIn(
            "void fill_flushed(struct cell *c, long v) {\n  c->a = v;\n  _mm_clwb(&c->a);\n  inner_flushed(c);\n}",
            fixed,
        )
        self.assertIn("static void inner_flushed(struct cell *c) { c->b = 9; _mm_clwb(&c->b); }", fixed)

    def test_a_file_that_declares_no_flush_includes_a_header(self) -> None:
        persistent = '__attribute__((section(".pm"), used)) '
        files = {
            "put.h": "#ifndef PUT_H\n#define PUT_H\nstatic inline void put(long *p) {\n  *p = 5;\n}\nlong *of(int);\nvoid fill(int);\n#endif\n",
            "a.c": f'#define MARK\n#ifdef NOTHING\n#include <nothing.h>\n#endif\n#include "put.h"\n{persistent}long a[4];\n'
            "long *of(int n) { return a + n; }\nint main(void) {\n  put(of(1));\n  a[0] = 1;\n  fill(3);\n  return 0;\n}\n",
            "b.c": f"{persistent}char text[9];\nvoid *memset(void *, int, unsigned long);\nvoid fill(int n) {{ memset(text, 3, n); }}\n",
        }
        for name, text in files.items():
            self.write(name, text)
        ran = self.hippo_c("check", "a.c", "b.c", "-O0", "--verify-fix", "--diff", "a.diff", code=1)
        self.assertIn("with the suggestions applied: 0 reports\n", ran.stdout)
        self.assertEqual(self.command("patch", "-p0", "-i", "a.diff").returncode, 0)
        self.assertIn('#endif\n#include <immintrin.h>\n#include "put.h"\n', self.read("a.c"))
        self.assertIn("#define PUT_H\n#include <immintrin.h>\nstatic", self.read("put.h"))
        self.assertTrue(self.read("b.c").startswith("#include <hippo.h>\n"))
        self.hippo_c("check", "a.c", "b.c", "-O0", code=0)

    def test_errors_of_the_c_itself_take_no_suggestion(self) -> None:
        self.write(
            "a.c",
            "PERSISTENT_GLOBAL long a;\nint main(void) {\n  old(1);\n  a = 1;\n  return 0;\n}\nint old(int n) { return n; }\n".replace(
                "PERSISTENT_GLOBAL", '__attribute__((section(".pm"), used))'
            ),
        )
        ran = self.hippo_c("check", "a.c", "-O0", "--verify-fix", "--", "-std=gnu89", code=1)
        self.assertIn("with the suggestions applied: 0 reports\n", ran.stdout)

    def test_apply_edits_the_files(self) -> None:
        self.write("a.c", HEAD + "PERSISTENT long a;\nint main(void) {\n  a = 1;\n  return 0;\n}\n")
        os.chmod(self.path("a.c"), 0o640)
        os.symlink("a.c", self.path("link.c"))
        ran = self.hippo_c("check", "link.c", "--apply", "--diff", "a.diff", code=1)
        self.assertIn("edited: 1 file\n", ran.stdout)
        self.assertIn("  a = 1;\n  _mm_clwb(&a);\n  _mm_sfence();\n", self.read("a.c"))
        self.assertTrue(os.path.islink(self.path("link.c")))
        self.assertEqual(os.stat(self.path("a.c")).st_mode & 0o777, 0o640)
        self.assertEqual(sorted(os.listdir(self.folder)), ["a.c", "a.diff", "link.c"])
        self.hippo_c("check", "a.c", "--apply", code=0)
        self.refused(
            "--diff, --verify-fix and --apply edit the files as they are", "check", "a.c", "--apply", "--expand-macros"
        )

    def test_sarif_and_json_have_the_edits(self) -> None:
        text = HEAD.replace("#include <hippo.h>\n", "") + (
            '__attribute__((section(".pm"), used)) long a;\nint main(void) {\n'
            "  /* \u00e9 */ if (1) a = 1;\n  return 0;\n}\n"
        )
        self.write("a.c", text)
        self.hippo_c("check", "a.c", "--sarif", "a.sarif", "--json", "a.json", code=1)
        fixes = json.loads(self.read("a.sarif"))["runs"][0]["results"][0]["fixes"]
        self.assertEqual(fixes[0]["description"]["text"], "add '_mm_clwb(&a); _mm_sfence();' after this statement")
        (change,) = fixes[0]["artifactChanges"]
        self.assertEqual(change["artifactLocation"], {"uri": "a.c", "uriBaseId": "SRCROOT"})
        lines = text.split("\n")
        for part in reversed(change["replacements"]):
            region = part["deletedRegion"]
            self.assertEqual(region["startLine"], region["endLine"])
            line = lines[region["startLine"] - 1]
            lines[region["startLine"] - 1] = (
                line[: region["startColumn"] - 1] + part["insertedContent"]["text"] + line[region["endColumn"] - 1 :]
            )
        self.write("fixed.c", "\n".join(lines))
        self.assertIn("#include <immintrin.h>\n#include <string.h>\n", self.read("fixed.c"))
        self.assertIn("if (1) { a = 1; _mm_clwb(&a); _mm_sfence(); }\n", self.read("fixed.c"))
        self.hippo_c("check", "fixed.c", code=0)
        edits = json.loads(self.read("a.json"))["inputs"][0]["groups"][0]["suggestion"]["edits"]
        self.assertEqual(
            [edit["text"] for edit in edits], [part["insertedContent"]["text"] for part in change["replacements"]]
        )
        self.hippo_c("check", "a.c", "--sarif", "a.sarif", "--expand-macros", code=1)
        self.assertNotIn("fixes", json.loads(self.read("a.sarif"))["runs"][0]["results"][0])

    def test_libpmem_stays_libpmem(self) -> None:
        self.take("from_c", "undo.c")
        self.take("from_c", "undo.in")
        ran = self.hippo_c("check", "undo.c", "--input-file", "undo.in", "--verify-fix", "--diff", "a.diff", code=1)
        self.assertIn("with the suggestions applied: 0 reports", ran.stdout)
        self.assertIn("\n+  pmem_drain();\n", self.read("a.diff"))

    def test_lines_that_end_as_on_windows(self) -> None:
        self.write(
            "a.c",
            HEAD.replace("\n", "\r\n") + "PERSISTENT long a;\r\nint main(void) {\r\n  a = 1;\r\n  return 0;\r\n}\r\n",
        )
        self.hippo_c("check", "a.c", "--diff", "a.diff", code=1)
        self.assertIn("+  _mm_clwb(&a);\r\n", self.read("a.diff"))

    def test_a_header_is_edited_where_the_statement_stands(self) -> None:
        self.write("put.h", "static inline void put(long *p) {\n  *p = 5;\n}\n")
        self.write("a.c", HEAD + '#include "put.h"\nPERSISTENT long a;\nint main(void) {\n  put(&a);\n  return 0;\n}\n')
        ran = self.hippo_c("check", "a.c", "--verify-fix", "--diff", "a.diff", code=1)
        self.assertIn("with the suggestions applied: 0 reports", ran.stdout)
        self.assertIn("+  _mm_clwb(p);\n", self.read("a.diff"))

    def test_the_ring(self) -> None:
        self.take("ring_buffer", "ring.c")
        ran = self.hippo_c("check", "ring.c", "--verify-fix", *RING_INPUT, code=1)
        self.assertIn("with the suggestions applied: 0 reports", ran.stdout)

"""Names of files that a program chooses by `#line`: no other file of the machine is shown, and nothing in a name controls a log or a page."""
import html.parser
import json
import os
import re
import unittest

from .common import Case
from .test_browser import BROWSER

from hippo_c.letters import shown, shown_line

PROGRAM = '#include <hippo.h>\nPERSISTENT long x;\n#line 2 "{}"\nint main(void) {{ x = 1; return 0; }}\n'
SECRET = "hunter2-and-more"


class Elements(html.parser.HTMLParser):
    """The elements of a page: how many of each, and the text of each script."""

    def __init__(self, page: str) -> None:
        super().__init__()
        self.counts: dict[str, int] = {}
        self.scripts: list[str] = []
        self.policy = ""
        self.feed(page)

    def handle_starttag(self, tag: str, attributes: list[tuple[str, str | None]]) -> None:
        """Counts an element."""
        self.counts[tag] = self.counts.get(tag, 0) + 1
        given = dict(attributes)
        if given.get("http-equiv") == "Content-Security-Policy":
            self.policy = given["content"] or ""
        if tag == "script":
            self.scripts.append("")

    def handle_data(self, data: str) -> None:
        """Keeps the text of a script."""
        if self.scripts and self.cdata_elem == "script":
            self.scripts[-1] += data


class Leaks(Case):
    """What `#line` names is not read."""

    def forms(self, name: str, **environment: str) -> str:
        """All that check writes about a program that names a file: text, JSON, SARIF and the page."""
        self.write("a.c", PROGRAM.format(name))
        words = ("check", "a.c", "--json", "a.json", "--sarif", "a.sarif", "--html", "a.html", "--fix")
        ran = self.hippo_c(*words, code=1, env={**os.environ, **environment}, timeout=240)
        self.assertIn("1 report in 1 group", ran.stdout)
        self.assertIn(f"{name}:2:20: warning: store of 8 bytes", ran.stdout)
        return str(ran.stdout) + str(ran.stderr) + "".join(map(self.read, ("a.json", "a.sarif", "a.html")))

    def test_the_environment_is_not_read(self) -> None:
        self.assertNotIn(SECRET, self.forms("/proc/self/environ", A_TOKEN=SECRET))

    def test_a_file_beside_the_program_is_not_read(self) -> None:
        self.write("token", f"{SECRET}\n{SECRET}\n")
        self.assertNotIn(SECRET, self.forms("token"))

    def test_a_file_that_the_program_embeds_is_not_read(self) -> None:
        """Neither `#embed` nor the marks of a preprocessor make a file one of the program's."""
        self.write("token", f"{SECRET}\n{SECRET}\n")
        self.write(
            "a.c",
            '#include <hippo.h>\nPERSISTENT long x;\nconst char d[] = {\n#embed "token"\n};\n# 1 "token" 1\n\n'
            "int main(void) { x = 1; return d[0] == 0; }\n",
        )
        ran = self.hippo_c("check", "a.c", "--html", "a.html", code=1)
        self.assertIn("token:2:20: warning: store of 8 bytes", ran.stdout)
        self.assertNotIn(SECRET, ran.stdout + self.read("a.html"))

    def test_a_text_cannot_name_a_file(self) -> None:
        self.write("token", f"{SECRET}\n{SECRET}\n")
        self.write(
            "a.ll",
            '@x = global i64 0, section ".pm"\ndefine i32 @main() !dbg !4 {\nentry:\n  store i64 1, ptr @x, !dbg !7\n  ret i32 0\n}\n'
            "!llvm.dbg.cu = !{!0}\n!llvm.module.flags = !{!2, !3}\n"
            "!0 = distinct !DICompileUnit(language: DW_LANG_C11, file: !1, emissionKind: LineTablesOnly)\n"
            f'!1 = !DIFile(filename: "token", directory: "")\n!2 = !{{i32 7, !"Dwarf Version", i32 5}}\n!3 = !{{i32 2, !"Debug Info Version", i32 3}}\n'
            '!4 = distinct !DISubprogram(name: "main", scope: !1, file: !1, line: 1, type: !5, unit: !0, spFlags: DISPFlagDefinition)\n'
            "!5 = !DISubroutineType(types: !6)\n!6 = !{}\n!7 = !DILocation(line: 2, column: 1, scope: !4)\n",
        )
        ran = self.hippo_c("check", "a.ll", "--html", "a.html", code=1)
        self.assertIn("token:2:1: warning: store of 8 bytes", ran.stdout)
        self.assertNotIn(SECRET, ran.stdout + self.read("a.html"))

    def test_files_without_an_end_do_not_hang(self) -> None:
        os.mkfifo(self.path("pipe"))
        for name in ("/dev/zero", "pipe", "/"):
            self.forms(name)

    def test_an_input_without_an_end_is_refused(self) -> None:
        self.write("a.c", PROGRAM.format("a.c"))
        for word in ("--input-file", "--inputs", "--baseline"):
            self.refused("/dev/zero: more than 256 MiB", "check", "a.c", word, "/dev/zero")

    def test_the_program_itself_and_its_headers_are_shown(self) -> None:
        self.write("h.h", "static void put(long *p) { *p = 1; } // in the header\n")
        self.write(
            "a.c",
            '#include <hippo.h>\n#include "h.h"\nPERSISTENT long x, y;\nint main(void) { put(&x); y = 2; return 0; } // in the file\n',
        )
        ran = self.hippo_c("check", "a.c", "--html", "a.html", code=1)
        self.assertIn("    1 | static void put(long *p) { *p = 1; } // in the header\n", ran.stdout)
        self.assertIn("    4 | int main(void) { put(&x); y = 2; return 0; } // in the file\n", ran.stdout)
        self.assertIn("*p = 1; } // in the header</code>", re.sub(r"</?span[^>]*>", "", self.read("a.html")))
        expanded = self.hippo_c("check", "a.c", "--expand-macros", code=1)
        self.assertIn("    4 | int main(void) { put(&x); y = 2; return 0; }", expanded.stdout)


class Letters(Case):
    """Letters of names that control a terminal, a log or a page."""

    def test_letters(self) -> None:
        self.assertEqual(
            shown("a\nb\x1b[31m\x7f\x85\u202e\u2028\t\udcff"),
            "a<U+000A>b<U+001B>[31m<U+007F><U+0085><U+202E><U+2028>\t\udcff",
        )
        self.assertEqual(shown_line("::error::x"), "./::error::x")
        self.assertEqual(shown_line("  ::error::x"), "./  ::error::x")
        self.assertEqual(shown_line("a ##[error]x ##vso[task]y a##b"), "a #<U+0023>[error]x #<U+0023>vso[task]y a##b")
        self.assertEqual(shown_line("store::x"), "store::x")

    def test_no_line_of_a_log_is_forged(self) -> None:
        for name in (
            r"x\n::error file=README.md::forged",
            "::error file=README.md::forged",
            r"x\r::error::forged",
            r"\033[2J\033]0;title\a",
            "##[error]forged",
            r"x\n\n##vso[task.complete]forged",
        ):
            self.write("a.c", PROGRAM.format(name))
            ran = self.hippo_c(
                "check", "a.c", "--fix", "--json", "a.json", "--sarif", "a.sarif", "--html", "a.html", code=1
            )
            texts = [ran.stdout, ran.stderr]
            run = json.loads(self.read("a.sarif"))["runs"][0]
            texts += [result["message"]["text"] for result in run["results"]]
            texts += [
                location["physicalLocation"]["artifactLocation"]["uri"] for location in run["results"][0]["locations"]
            ]
            group = json.loads(self.read("a.json"))["inputs"][0]["groups"][0]
            texts += [group["message"], self.read("a.html")]
            for text in texts:
                self.assertNotRegex(text, r"[\x00-\x08\x0b-\x1f\x7f]|##\[|##vso")
                self.assertNotRegex(text, r"(?m)^\s*::|^forged")
            self.assertEqual(group["store"]["file"], name_of(name), "JSON has the name itself")

    def test_no_message_of_a_tool_is_forged(self) -> None:
        self.write("a.c", '#line 2 "x\\n::error file=README.md::forged\\033[31m"\nint main(void) { return missing; }\n')
        ran = self.hippo_c("check", "a.c", code=2)
        self.assertIn("use of undeclared identifier", ran.stderr)
        self.assertNotRegex(ran.stderr, r"(?m)^\s*::|\x1b")

    def test_a_line_of_c_controls_no_terminal(self) -> None:
        self.write(
            "a.c",
            "#include <hippo.h>\nPERSISTENT long x;\r/* *\r::error::forged */\r\nint main(void) { /* \x1b[31m */ x = 1; return 0; }\n",
        )
        ran = self.hippo_c("check", "a.c", code=1)
        first, code, caret = ran.stdout.split("\n")[:3]
        self.assertTrue(first.startswith("a.c:5:"), first)
        self.assertEqual(code, "    5 | int main(void) { /* <U+001B>[31m */ x = 1; return 0; }")
        self.assertEqual(code[caret.index("^")], "=")
        self.assertNotRegex(ran.stdout, r"(?m)^\s*::|[\r\x1b]")

    def test_the_page_keeps_its_script(self) -> None:
        name = "<!--<script>.c"
        self.write(name, PROGRAM.format("<!--<script>"))
        self.hippo_c("check", name, "--html", "a.html", "--fix", code=1)
        page = self.read("a.html")
        elements = Elements(page)
        self.assertEqual(elements.counts["script"], 2)
        self.assertEqual(len(re.findall("<!--|<script", page)), 2)
        self.assertEqual(json.loads(elements.scripts[0])["files"].keys(), {name, "<!--<script>"})

    def test_the_page_has_a_policy(self) -> None:
        self.write("a.c", PROGRAM.format("a.c"))
        self.hippo_c("check", "a.c", "--html", "a.html", code=1)
        page = self.read("a.html")
        policy = Elements(page).policy
        self.assertRegex(
            policy,
            r"^default-src 'none'; script-src 'sha256-[\w+/=]{44}'; style-src 'sha256-[\w+/=]{44}'; base-uri 'none'; form-action 'none'$",
        )
        self.assertLess(page.index("Content-Security-Policy"), min(page.index("<style>"), page.index("<script")))
        self.assertNotRegex(page, r"<[^>]* style=|<[^>]* on\w+=")

    @unittest.skipUnless(BROWSER, "no browser is installed")
    def test_a_browser_runs_the_script_of_the_page_and_no_other(self) -> None:
        name = "<!--<script>.c"
        self.write(name, PROGRAM.format(name).replace('"<', '"./<'))
        self.hippo_c("check", name, "--html", "a.html", code=1)
        self.write(
            "b.html", self.read("a.html").replace("</footer>", '</footer><script>document.title = "forged"</script>')
        )
        words = ["--headless", "--no-sandbox", "--disable-gpu", f'--user-data-dir={self.path("profile")}', "--dump-dom"]
        dom = self.command(str(BROWSER), *words, f'file://{self.path("b.html")}#g0').stdout
        self.assertIn("<ol><li>the store: ", dom, "the script of the page shows the first group")
        self.assertIn("<title>hippo-c: ", dom)


def name_of(name: str) -> str:
    """The name that a literal of C gives."""
    return re.sub(
        r"\\(0?[0-7]{2,3}|[nra])",
        lambda found: {"n": "\n", "r": "\r", "a": "\a"}.get(found[1]) or chr(int(found[1], 8)),
        name,
    )


if __name__ == "__main__":
    unittest.main()

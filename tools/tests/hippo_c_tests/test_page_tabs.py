"""The page in a browser: its tabs, groups of several inputs, folded fences, helpers named by their callers, grey lines, and no request."""
import json
import re
import unittest
from typing import Any

from .common import LONG, Case, with_probe
from .test_browser import BROWSER

PROGRAM = """#include <hippo.h>
struct node { long next, key; };
PERSISTENT struct { long count, root; } store;
PERSISTENT _Alignas(64) long other;
PERSISTENT char arena[256];
static void persist(const void *p, unsigned long n) { pmem_persist(p, n); }
static void put(struct node *n, long key) {
  n->key = key;
}
int main(void) {
  long number = read_i64();
  if (number == 3)
    store.root = 1;
  put((struct node *)(arena + 64), number);
  store.count = 1;
  for (int i = 0; i < 57; i++)
    persist(&other, sizeof other);
  return 0;
}
"""
PROBE = """<script>
const seen = () => ({
  tabs: tabs.map(tab => [tab.textContent, tab.getAttribute('aria-selected')]),
  shown: ['findings', 'crashes', 'fixes'].filter(name => !document.getElementById(name).hidden),
  hash: location.hash,
});
const rowsOf = () => [...document.querySelectorAll('.picture tr')].map(row => [...row.cells].slice(0, 2).map(cell => cell.textContent));
const found = {start: seen(), names: data.groups.map(group => group.name), rows: rowsOf(), detail: detail.textContent};
found.objects = rows.map(row => row.querySelector('.object').textContent);
found.counts = rows.map(row => row.querySelector('.count').textContent);
found.grey = [...document.querySelectorAll('.line.idle')].map(line => line.id);
found.headings = headings.map(one => one.textContent);
choose(data.groups.findIndex(group => group.object === 'store.count'));
found.second = {rows: rowsOf(), detail: detail.textContent};
document.getElementById('tab-fixes').click();
found.fixes = {...seen(), diff: document.getElementById('diff').textContent};
document.getElementById('tab-findings').click();
found.back = seen();
filter.value = 'store.count';
filter.dispatchEvent(new Event('input'));
found.filtered = rows.filter(row => !row.hidden).length;
found.requests = performance.getEntriesByType('resource').length;
document.title = JSON.stringify(found);
</script></body>"""


@unittest.skipUnless(BROWSER, "no browser is installed")
class Tabs(Case):
    """What the page shows."""

    def shown(self, fragment: str = "") -> dict[str, Any]:
        """What the probe finds."""
        words = ["--headless", "--no-sandbox", "--disable-gpu", f'--user-data-dir={self.path("profile")}', "--dump-dom"]
        dom = self.command(str(BROWSER), *words, f'file://{self.path("a.html")}{fragment}', timeout=LONG).stdout
        title = self.group_in(r"<title>(.*?)</title>", dom)
        for name, letter in (("lt", "<"), ("gt", ">"), ("amp", "&")):
            title = title.replace(f"&{name};", letter)
        found: dict[str, Any] = json.loads(title)
        return found

    def test_a_check_of_two_inputs(self) -> None:
        self.write("a.c", PROGRAM)
        self.write("inputs", "1\n2\n")
        self.hippo_c("check", "a.c", "-O0", "--inputs", "inputs", "--html", "a.html", code=1)
        page = self.read("a.html")
        self.assertNotRegex(re.sub(r'<script id="data".*?</script>', "", page, flags=re.S), r"https?://")
        self.write("a.html", with_probe(page, PROBE))
        found = self.shown()
        self.assertEqual(found["start"]["tabs"], [["Findings 2", "true"], ["Fixes 2", "false"]])
        self.assertEqual((found["start"]["shown"], found["start"]["hash"]), (["findings"], f'#{found["names"][0]}'))
        self.assertRegex(found["objects"][0], r"^key of a \w*\s?node at arena")
        self.assertEqual(found["objects"][1:], ["store.count"])
        self.assertEqual(found["counts"], ["2 · 2 inputs", "2 · 2 inputs"])
        self.assertIn("Shown by: input 1 (1): 1; input 2 (2): 1", found["detail"])
        self.assertEqual(found["grey"], ["f0l13"])
        self.assertEqual(found["headings"], ["a.c: 2 groups"])
        self.assertEqual(found["rows"], [["store 8", "a.c:8"], ["57 fences without effect"], ["end of run", "a.c:18"]])
        self.assertEqual(found["fixes"]["shown"], ["fixes"])
        self.assertEqual(found["fixes"]["hash"], "#fixes")
        self.assertIn("+  pmem_flush(&n->key, sizeof(n->key));\n", found["fixes"]["diff"])
        self.assertEqual((found["back"]["shown"], found["back"]["hash"]), (["findings"], f'#{found["names"][1]}'))
        self.assertEqual(found["filtered"], 1)
        self.assertEqual(found["requests"], 0)
        linked = self.shown(f'#{found["names"][1]}')
        self.assertEqual(linked["start"]["hash"], f'#{found["names"][1]}')

    def test_a_helper_is_named_by_its_caller(self) -> None:
        """A flush and a fence in `persist` have the line of the call, whether it is inlined or not."""
        text = """#include <hippo.h>
PERSISTENT long a;
static INLINE void persist(const void *p, unsigned long n) { pmem_persist(p, n); }
int main(void) {
  a = 1;
  persist(&a, sizeof a);
  a = 2;
  return 0;
}
"""
        for inline in ("", "inline __attribute__((always_inline))"):
            self.write("a.c", text.replace("INLINE", inline))
            self.hippo_c("check", "a.c", "--html", "a.html", code=1)
            data = self.group_in(r'<script id="data" type="application/json">(.*?)</script>', self.read("a.html"))
            events = json.loads(data)["groups"][0]["history"]["events"]
            self.assertEqual(
                [(event[1], event[4]) for event in events],
                [("store", "a.c:5"), ("flush", "a.c:6"), ("fence", "a.c:6"), ("store", "a.c:7")],
                inline,
            )

    def test_power_cuts(self) -> None:
        """The page of crash has what power cuts show in a tab of its own."""
        self.write(
            "a.c",
            "#include <hippo.h>\nPERSISTENT _Alignas(64) long a;\nPERSISTENT _Alignas(64) long valid;\nint main(void) {\n"
            "  if (valid && !a)\n    __builtin_trap();\n  a = 1;\n  valid = 1;\n  pmem_persist(&valid, sizeof valid);\n  return 0;\n}\n",
        )
        self.hippo_c("crash", "a.c", "--runs", "500", "--html", "a.html", code=1)
        self.write(
            "a.html",
            with_probe(
                self.read("a.html"),
                PROBE.replace("choose(data.groups.findIndex(group => group.object === 'store.count'));", ""),
            ),
        )
        found = self.shown("#crashes")
        self.assertEqual([name for name, _ in found["start"]["tabs"]], ["Findings 1", "Crashes", "Fixes 1"])
        self.assertEqual((found["start"]["shown"], found["start"]["hash"]), (["crashes"], "#crashes"))
        self.assertIn("after a power cut here the next run fails", self.read("a.html"))
        self.refused("leave out --entries", "crash", "a.c", "--entries", "3", "--html", "b.html")

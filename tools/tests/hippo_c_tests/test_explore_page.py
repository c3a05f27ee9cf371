"""The behaviours of crash points: as data, on the page, and what hippo does not confirm."""
import json
import re
import unittest

from .common import with_probe
from .explore_case import BugCase, numbers_of
from .test_browser import BROWSER

from hippo_c import confirming
from hippo_c.engine_lines import Reader

PROBE = """<script>
openTab('crashes');
const points = [...document.querySelectorAll('details.point')];
const seen = point => [point.querySelector('summary').textContent, point.open, [...point.querySelectorAll('tr')].map(
  row => [row.className, ...[...row.cells].map(cell => cell.textContent)])];
const before = points.map(seen);
const closed = points.find(point => !point.open);
const heights = [closed.getBoundingClientRect().height];
closed.querySelector('summary').click();
setTimeout(() => {
  heights.push(closed.getBoundingClientRect().height);
  const section = document.querySelector('.failures').getBoundingClientRect();
  document.title = JSON.stringify({before, heights, section: [section.top, section.bottom], all: document.body.scrollWidth <= innerWidth});
}, 50);
</script></body>"""


class Behaviours(BugCase):
    """What the next run reads at each crash point, and how it ends."""

    def test_each_behaviour_of_a_crash_point(self) -> None:
        self.bug("torn_pair", "--runs", "600", "--json", "a.json", code=1)
        answer = json.loads(self.read("a.json"))
        given = [point for point in answer["crash_points"] if point["numbers"] == numbers_of("torn_pair")]
        self.assertEqual([point["entry"] for point in given], sorted(point["entry"] for point in given))
        for point in given:
            self.assertLessEqual(len(point["behaviours"]), point["images"])
        failing = [(point, one) for point in given for one in point["behaviours"] if one["fails"]]
        self.assertTrue(failing)
        for point, one in failing:
            self.assertEqual(one["ended"], "trap unreachable")
            self.assertIn(one["trap"]["line"], range(15, 21))
            values = {read["object"]: read["value"] for read in one["reads"]}
            self.assertNotEqual(sum(values.values()), 1000, point)
            self.assertTrue(set(values) <= {"scales.pairs[0].left", "scales.pairs[0].right"}, values)
        self.assertTrue(any(not one["fails"] for point in given for one in point["behaviours"]))

    def test_a_changed_behaviour_is_not_shown(self) -> None:
        session = self.session("torn_pair")
        engine = self.engine_in(session)
        lines = [
            line
            for line in self.lines(engine, "replay", numbers_of("torn_pair"), "--runs", "2000", "--behaviours", "40")
            if line.startswith("behaviour ")
        ]
        failing = next(number for number, line in enumerate(lines) if " fails=1 " in line)
        lines = lines[max(failing - 3, 0) : failing + 1]
        for change in (
            ("", ""),
            ("ending=unreachable", "ending=divzero"),
            (" fails=1 ", " fails=0 "),
            (r"(reads=\d+:\d+:)\w+", r"\g<1>77"),
            (r" site=\d+", " site=0"),
            ("told=0", "told=1"),
        ):
            reader = Reader(engine.sites)
            for line in lines[:-1]:
                reader.take(line)
            reader.take(re.sub(*change, lines[-1]))
            refused = int(bool(change[0]))
            confirmed = confirming.Confirming(session).confirm(reader.found, [])
            self.assertEqual((confirmed.refused, len(confirmed.behaviours)), (refused, len(lines) - refused), change)

    @unittest.skipUnless(BROWSER, "no browser is installed")
    def test_the_page_in_a_browser(self) -> None:
        self.bug("torn_pair", "--runs", "600", "--html", "a.html", code=1)
        self.write("a.html", with_probe(self.read("a.html"), PROBE))
        words = [
            "--headless",
            "--no-sandbox",
            "--disable-gpu",
            "--window-size=1400,900",
            f'--user-data-dir={self.path("profile")}',
            "--virtual-time-budget=5000",
            "--dump-dom",
        ]
        shown = self.command(str(BROWSER), *words, f'file://{self.path("a.html")}', timeout=300).stdout
        seen = json.loads(
            self.group_in(r"<title>(.*)</title>", shown).replace("&lt;", "<").replace("&gt;", ">").replace("&amp;", "&")
        )
        self.assertLess(seen["heights"][0], seen["heights"][1])
        self.assertLess(seen["section"][0], seen["section"][1])
        self.assertTrue(seen["all"])
        texts = [text for text, is_open, _ in seen["before"] if is_open]
        self.assertTrue(texts)
        for text, is_open, rows in seen["before"]:
            self.assertRegex(text, r"^after entry \d+, .*: [\d,]+ images?, \d+ behaviours?")
            self.assertEqual(rows[0], ["", "An image", "The next run reads", "It ends"])
            self.assertEqual(is_open, any(row[0] == "fails" for row in rows))
        failing = next(row for _, _, rows in seen["before"] for row in rows if row[0] == "fails")
        self.assertRegex(failing[2], r"scales\.pairs\[0\]\.(left|right) = \d+")
        self.assertRegex(failing[3], r"torn_pair\.c:1\d$")


if __name__ == "__main__":
    unittest.main()

"""The page in a browser: its keys, its filter and the picture of a cache line."""
import json
import shutil
import unittest

from .common import LONG, RING_INPUT, Case, with_probe

BROWSER = shutil.which("chromium") or shutil.which("chromium-browser") or shutil.which("google-chrome")
PROBE = """<script>
const press = key => document.dispatchEvent(new KeyboardEvent('keydown', {key, bubbles: true}));
const seen = () => [chosen, detail.hidden, document.querySelectorAll('.picture tr').length, document.querySelector('.line.chosen')?.id];
const found = [seen()];
for (const key of ['j', 'j', 'k', 'Escape']) { press(key); found.push(seen()); }
filter.value = 'tail';
filter.dispatchEvent(new Event('input'));
found.push(rows.filter(row => !row.hidden).length);
document.querySelector('.badge').click();
found.push(seen());
document.title = JSON.stringify(found);
</script></body>"""


@unittest.skipUnless(BROWSER, "no browser is installed")
class Browser(Case):
    """What the page does when it is used."""

    def test_keys_filter_and_badges(self) -> None:
        self.take("ring_buffer", "ring.c")
        self.hippo_c("check", "ring.c", "--html", "a.html", *RING_INPUT, code=1)
        self.write("a.html", with_probe(self.read("a.html"), PROBE))
        words = ["--headless", "--no-sandbox", "--disable-gpu", f'--user-data-dir={self.path("profile")}', "--dump-dom"]
        shown = self.command(str(BROWSER), *words, f'file://{self.path("a.html")}', timeout=LONG).stdout
        keys = json.loads(self.group_in(r"<title>(.*)</title>", shown))
        first, second = keys[0], keys[1]
        self.assertEqual((first[0], first[1], first[3]), (0, False, "f0l47"))
        self.assertEqual((second[0], second[1], second[3]), (1, False, "f0l62"))
        self.assertEqual(first[2], 3)
        self.assertGreater(second[2], 20)
        self.assertEqual(keys[2], second)
        self.assertEqual(keys[3], first)
        self.assertEqual((keys[4][0], keys[4][1]), (0, True))
        self.assertEqual(keys[5], 1)
        self.assertEqual(keys[6], first)

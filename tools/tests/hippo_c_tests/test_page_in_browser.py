"""The page of a thousand groups in a browser: light and dark, a link to a group, keys, and the filter."""
import base64
import hashlib
import json
import os
import re
import subprocess
import sys
import tempfile
import unittest
from typing import Any

from .common import TOOLS, Case
from .test_browser import BROWSER

COUNT = 1000
PROGRAM = ("#include <hippo.h>\nPERSISTENT long a[{count}];\nint main(void) {{\n{stores}  return 0;\n}}\n").format(
    count=COUNT, stores="".join(f"  a[{number}] = {number + 1};\n" for number in range(COUNT))
)
FIRST_LINE = 4
LINKED = 700
with open(os.path.join(os.path.dirname(os.path.abspath(__file__)), "page_probe.js"), encoding="ascii") as probe:
    PROBE = probe.read()


@unittest.skipUnless(BROWSER, "no browser is installed")
class PageInBrowser(Case):
    """What the page of a thousand groups shows and does."""

    page: str

    @classmethod
    def setUpClass(cls) -> None:
        """Makes the page."""
        super().setUpClass()
        with tempfile.TemporaryDirectory(prefix="hippo-c-test-") as folder:
            with open(os.path.join(folder, "many.c"), "w", encoding="ascii") as file:
                file.write(PROGRAM)
            command = [
                sys.executable,
                os.path.join(TOOLS, "hippo-c"),
                "check",
                "many.c",
                "-O0",
                "--no-coverage",
                "--groups",
                "1",
                "--html",
                "a.html",
            ]
            ran = subprocess.run(
                command, cwd=folder, stdin=subprocess.DEVNULL, capture_output=True, text=True, check=False
            )
            assert ran.returncode == 1, ran.stderr
            with open(os.path.join(folder, "a.html"), encoding="utf-8") as file:
                cls.page = file.read()

    def shown(self, scheme: int, fragment: str = "") -> dict[str, Any]:
        """What the probe finds in a colour scheme, 0 for dark and 1 for light, at a link into the page."""
        mark = base64.b64encode(hashlib.sha256(PROBE.encode()).digest()).decode()
        text = self.page.replace("script-src ", f"script-src &#x27;sha256-{mark}&#x27; ", 1)
        self.write("a.html", text.replace("</body>", f"<script>{PROBE}</script></body>"))
        words = [
            "--headless",
            "--no-sandbox",
            "--disable-gpu",
            "--window-size=1400,900",
            f'--user-data-dir={self.path("profile")}',
            f"--blink-settings=preferredColorScheme={scheme}",
            "--dump-dom",
        ]
        dom = self.command(str(BROWSER), *words, f'file://{self.path("a.html")}{fragment}').stdout
        found: dict[str, Any] = json.loads(
            self.group_in(r"<title>(.*?)</title>", dom).replace("&lt;", "<").replace("&gt;", ">").replace("&amp;", "&")
        )
        return found

    def is_at(self, seen: dict[str, Any], number: int) -> None:
        """The page shows a group: it is chosen, its line is marked, and the address names it."""
        self.assertEqual(
            (seen["chosen"], seen["hidden"], seen["line"], seen["hash"]),
            (number, False, f"f0l{FIRST_LINE + number}", f"#{self.names()[number]}"),
        )
        self.assertIn(f"'a[{number}]'", seen["heading"])

    def names(self) -> list[str]:
        """The names of the groups in the address: the beginnings of their fingerprints."""
        return re.findall(r'"name": "([0-9a-f]{16})"', self.page)

    def has_contrast(self, found: dict[str, Any]) -> None:
        """Each text that is there can be read: a contrast of 4.5 at least."""
        there = {name: contrast for name, contrast in found["contrasts"].items() if contrast is not None}
        self.assertGreater(len(there), 10)
        self.assertEqual({name: contrast for name, contrast in there.items() if contrast < 4.5}, {})

    def test_light_with_a_link_and_keys(self) -> None:
        found = self.shown(1, f"#{self.names()[LINKED]}")
        self.assertEqual((found["dark"], found["back"], found["rows"]), (False, "rgb(255, 255, 255)", COUNT))
        self.assertGreaterEqual(found["lines"], COUNT + 5)
        self.is_at(found["start"], LINKED)
        self.assertEqual(found["view"], [True, True])
        self.is_at(found["j"], LINKED + 1)
        self.is_at(found["k"], LINKED - 1)
        self.assertTrue(found["slash"])
        self.assertEqual(found["typed"], found["k"])
        self.assertEqual(found["escape"], [True, False])
        self.is_at(found["last"], COUNT - 1)
        self.assertEqual(found["filtered"], 11)
        self.is_at(found["skips"], 99)
        self.is_at(found["badge"], 5)
        self.has_contrast(found)

    def test_dark_without_a_link(self) -> None:
        found = self.shown(0)
        self.assertEqual((found["dark"], found["back"], found["rows"]), (True, "rgb(13, 17, 23)", COUNT))
        self.is_at(found["start"], 0)
        self.is_at(found["j"], 1)
        self.has_contrast(found)


if __name__ == "__main__":
    unittest.main()

"""JSON, SARIF and the page."""
import html.parser
import json

from .common import RING_INPUT, Case

from hippo_c.history import History, applied
from typing import Any

REQUIRED = {  # SARIF 2.1.0: the required properties of each object that hippo-c writes.
    "log": ("version", "runs"),
    "run": ("tool",),
    "tool": ("driver",),
    "driver": ("name",),
    "rule": ("id",),
    "result": ("message",),
    "message": ("text",),
    "invocation": ("executionSuccessful",),
}


class Page(html.parser.HTMLParser):
    """The elements of a page: ids, and whether each is closed."""

    EMPTY = {"meta", "input", "br", "link"}

    def __init__(self) -> None:
        super().__init__()
        self.open: list[str] = []
        self.ids: list[str] = []
        self.outside: list[str] = []
        self.rows = 0

    def handle_starttag(self, tag: str, attributes: list[tuple[str, str | None]]) -> None:
        """Opens an element."""
        given = dict(attributes)
        self.ids += [value for name, value in attributes if name == "id" and value is not None]
        self.outside += [value for name, value in attributes if name in ("src", "href") and value is not None]
        self.rows += "line" in (given.get("class") or "").split()
        if tag not in self.EMPTY:
            self.open.append(tag)

    def handle_endtag(self, tag: str) -> None:
        """Closes the last open element, which must have this name."""
        if self.open.pop() != tag:
            raise AssertionError(f"</{tag}> closes another element")


class Forms(Case):
    """The forms of one answer."""

    def setUp(self) -> None:
        """Takes the ring buffer."""
        super().setUp()
        self.take("ring_buffer", "ring.c")

    def test_json_says_what_the_text_says(self) -> None:
        ran = self.hippo_c("check", "ring.c", "--fix", "--json", "a.json", *RING_INPUT, code=1)
        answer = json.loads(self.read("a.json"))
        groups = answer["inputs"][0]["groups"]
        for group in groups:
            place = group["store"]
            self.assertIn(
                f'{place["file"]}:{place["line"]}:{place["column"]}: warning: {group["message"]}\n', ran.stdout
            )
            self.assertIn(f'suggestion: {group["suggestion"]["text"]}\n', ran.stdout)
        self.assertEqual(answer["inputs"][0]["reports"], sum(group["reports"] for group in groups))
        only = self.hippo_c("check", "ring.c", "--fix", "--json", "-", *RING_INPUT, code=1)
        self.assertEqual(json.loads(only.stdout), answer)

    def test_sarif_has_what_is_required(self) -> None:
        self.hippo_c("check", "ring.c", "--sarif", "a.sarif", *RING_INPUT, code=1)
        log = json.loads(self.read("a.sarif"))
        run = log["runs"][0]
        driver = run["tool"]["driver"]
        parts = [
            ("log", log),
            ("run", run),
            ("tool", run["tool"]),
            ("driver", driver),
            ("invocation", run["invocations"][0]),
        ]
        parts += [("rule", rule) for rule in driver["rules"]] + [("result", result) for result in run["results"]]
        parts += [("message", result["message"]) for result in run["results"]]
        for kind, part in parts:
            for name in REQUIRED[kind]:
                self.assertIn(name, part, kind)
        self.assertEqual(log["version"], "2.1.0")
        self.assertEqual(len(run["results"]), 2)
        for result in run["results"]:
            self.assertEqual(driver["rules"][result["ruleIndex"]]["id"], result["ruleId"])
            self.assertIn(result["level"], ("none", "note", "warning", "error"))
            for location in result["locations"] + result["relatedLocations"]:
                place = location["physicalLocation"]
                self.assertEqual(place["artifactLocation"], {"uri": "ring.c", "uriBaseId": "SRCROOT"})
                self.assertGreater(place["region"]["startLine"], 0)
            self.assertIn("text", result["relatedLocations"][0]["message"])
            self.assertRegex(result["partialFingerprints"]["hippoStore/v2"], r"^[0-9a-f]{64}$")

    def test_fingerprints_stay_when_lines_move(self) -> None:
        def fingerprints(name: str) -> list[dict[str, Any]]:
            self.hippo_c("check", name, "--sarif", "a.sarif", *RING_INPUT, code=1)
            return [result["partialFingerprints"] for result in json.loads(self.read("a.sarif"))["runs"][0]["results"]]

        self.write("moved.c", "\n// one\n// two\n" + self.read("ring.c"))
        self.assertEqual(fingerprints("ring.c"), fingerprints("moved.c"))

    def test_names_in_uris_and_columns_of_other_letters(self) -> None:
        self.write("my ring.c", "#include <hippo.h>\nPERSISTENT long a;\nint main(void) { /* ö */ a = 1; return 0; }\n")
        self.hippo_c("check", "my ring.c", "--sarif", "a.sarif", code=1)
        place = json.loads(self.read("a.sarif"))["runs"][0]["results"][0]["locations"][0]["physicalLocation"]
        self.assertEqual(place["artifactLocation"]["uri"], "my%20ring.c")
        self.assertEqual(place["region"], {"startLine": 3, "startColumn": 28})

    def test_the_page_is_whole_and_alone(self) -> None:
        self.hippo_c("check", "ring.c", "--html", "a.html", *RING_INPUT, code=1)
        text = self.read("a.html")
        page = Page()
        page.feed(text)
        self.assertEqual(page.open, [])
        self.assertEqual(page.outside, [])
        self.assertNotRegex(text, "https?:")
        lines = self.read("ring.c").rstrip("\n").split("\n")
        self.assertEqual(
            [name for name in page.ids if name.startswith("f0l")],
            [f"f0l{number}" for number in range(1, len(lines) + 1)],
        )
        self.assertEqual(page.rows, len(lines) + 3)
        self.assertEqual(len(set(page.ids)), len(page.ids))
        data = json.loads(text.split('type="application/json">')[1].split("</script>")[0])
        self.assertEqual([group["store"]["line"] for group in data["groups"]], [47, 62])
        events = data["groups"][1]["history"]["events"]
        self.assertEqual([event[1] for event in events[-2:]], ["store", "flush"])
        self.assertEqual([event[4] for event in events[-2:]], ["ring.c:62", "ring.c:63"])

    def test_what_stands_in_c_stays_text(self) -> None:
        self.write(
            "a.c", "#include <hippo.h>\nPERSISTENT long a;\nint main(void) { a = 1; return 0; } // </script><b>&amp;\n"
        )
        self.hippo_c("check", "a.c", "--html", "a.html", code=1)
        page = Page()
        page.feed(self.read("a.html"))
        self.assertEqual(page.open, [])
        self.assertIn("// &lt;/script&gt;&lt;b&gt;&amp;amp;", self.read("a.html"))


class Histories(Case):
    """The states of the bytes of a cache line."""

    def test_a_store_a_flush_and_a_fence(self) -> None:
        state = ["."] * 64
        state = applied(state, (1, "store", 8, 8))
        self.assertEqual("".join(state[7:17]), "." + "s" * 8 + ".")
        self.assertEqual(applied(state, (2, "fence", 0, 0)), state)
        state = applied(state, (3, "flush", 0, 64))
        state = applied(state, (4, "store", 15, 2))
        self.assertEqual("".join(state[7:18]), "." + "f" * 7 + "ss" + ".")
        self.assertEqual("".join(applied(state, (5, "fence", 0, 0))[7:18]), "." * 8 + "ss" + ".")

    def test_old_events_go_into_the_first_state(self) -> None:
        history = History(0, 1000)
        for number in range(100):
            history.take((number, "store", number % 64, 1))
        data = history.data({})
        self.assertEqual((data["left_out"], len(data["events"])), (60, 40))
        self.assertEqual(data["state"], "s" * 60 + "....")

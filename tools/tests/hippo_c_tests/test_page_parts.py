"""The parts of a page without a browser: the history of a cache line, the lines of a file, the groups of several inputs."""
import html
import re
import unittest
from typing import Any

from . import common  # noqa: F401 finds the tools

from hippo_c.coverage import Coverage, united as united_coverage
from hippo_c.highlight import lines_in_html
from hippo_c.history import MOST_EVENTS, Event, History, applied
from hippo_c.united import united

TAG = re.compile(r"</?span[^>]*>")


class Histories(unittest.TestCase):
    """What is shown of the events of a cache line."""

    def history(self, events: list[Event], *pinned: int) -> History:
        """The history of some events."""
        found = History(0, 10_000, set(pinned))
        for event in events:
            found.take(event)
        return found

    def test_fences_without_effect_are_one_event(self) -> None:
        """Between two events only; a fence that makes a flush durable is shown."""
        events: list[Event] = [(1, "store", 0, 8)]
        events += [(entry, "fence", 0, 0) for entry in range(2, 59)]
        events += [(60, "flush", 0, 64), (61, "fence", 0, 0), (62, "store", 8, 4), (63, "fence", 0, 0)]
        found = self.history(events, 1)
        self.assertEqual(
            list(found.events),
            [
                (1, "store", 0, 8),
                (2, "idle", 0, 57),
                (60, "flush", 0, 64),
                (61, "fence", 0, 0),
                (62, "store", 8, 4),
                (63, "idle", 0, 1),
            ],
        )

    def test_the_store_and_its_flush_are_always_shown(self) -> None:
        """However many events come after them, each with the state before it and the number of events that are left out."""
        events: list[Event] = [(entry, "store", 16, 8) for entry in range(1, 11)]
        events += [(11, "store", 0, 8), (12, "store", 8, 8), (13, "flush", 0, 64)]
        events += [(entry, "store", 32, 8) for entry in range(14, 114)]
        found = self.history(events, 11)
        self.assertEqual([(left_out, event[0]) for left_out, _, event in found.kept], [(10, 11), (1, 13)])
        self.assertEqual(found.kept[0][1], "." * 16 + "s" * 8 + "." * 40)
        self.assertEqual(found.kept[1][1], "s" * 24 + "." * 40)
        self.assertEqual(len(found.events), MOST_EVENTS)
        self.assertEqual(len(events), 10 + 1 + 2 + found.left_out + MOST_EVENTS)

    def test_the_last_state_is_that_of_all_events(self) -> None:
        """Whatever is left out, the rows that are shown end in the state of the line."""
        events: list[Event] = []
        for entry in range(1, 400, 4):
            events += [(entry, "store", entry % 56, 8), (entry + 1, "fence", 0, 0)]
            events += [(entry + 2, "flush", 0, 64)] * (entry % 3 == 0) + [(entry + 3, "fence", 0, 0)] * (entry % 5 == 0)
        found = self.history(events, 41, 201)
        state, shown = ["."] * 64, list(found.state)
        for event in events:
            state = applied(state, event)
        for event in found.events:
            shown = applied(shown, event)
        self.assertEqual(shown, state)
        self.assertEqual(found.now, state)


class Lines(unittest.TestCase):
    """The lines of C with their colours."""

    def test_text_is_unchanged(self) -> None:
        lines = [
            '#include "a<b>.h" // x & y',
            "/* of two",
            '   lines */ char *s = "/* no \\" comment */"; // \'',
            "int n = 0x1'000 + sizeof c['\\''];",
            "",
        ]
        found = lines_in_html(lines)
        self.assertEqual([html.unescape(TAG.sub("", line)) for line in found], lines)
        self.assertIn('<span class="c">/* of two</span>', found[1])
        self.assertTrue(found[2].startswith('<span class="c">   lines */</span>'), found[2])
        self.assertIn('<span class="t">&quot;/* no \\&quot; comment */&quot;</span>', found[2])
        self.assertIn('<span class="w">sizeof</span>', found[3])

    def test_markup_stays_text(self) -> None:
        self.assertEqual(lines_in_html(["</code><script>"]), ["&lt;/code&gt;&lt;script&gt;"])


class Inputs(unittest.TestCase):
    """Several inputs as one."""

    @staticmethod
    def item(*groups: tuple[str, int]) -> dict[str, Any]:
        """What an input shows."""
        return {
            "numbers": [],
            "groups": [{"fingerprint": mark, "reports": count, "message": f"{mark} [flush]"} for mark, count in groups],
        }

    def test_groups_of_one_fingerprint(self) -> None:
        """They are one group, with the reports of each input; equal fingerprints of one input stay apart."""
        answer = {"inputs": [self.item(("a", 2), ("b", 1)), self.item(("c", 5), ("a", 3), ("a", 4))]}
        found = united(answer, [[{}, {}], [{}, {}, {}]])
        self.assertEqual(
            [(group["name"], group["reports"], [one["input"] for one in group["inputs"]]) for group in found],
            [("a", 5, [1, 2]), ("b", 1, [1]), ("c", 5, [2]), ("a-2", 4, [2])],
        )
        self.assertEqual(found[0]["message"], "a")

    def test_lines_that_no_input_ran(self) -> None:
        """A line that ran on one input ran."""
        every = frozenset(("a.c", line) for line in range(1, 8)) | {("b.c", 1)}
        first = Coverage(frozenset({("a.c", 1), ("a.c", 2)}), every, True)
        second = Coverage(frozenset({("a.c", 1), ("a.c", 5)}), every, True)
        both = united_coverage([first, None, second])
        assert both is not None
        self.assertEqual(both.missed(), {"a.c": [(3, 4), (6, 7)], "b.c": [(1, 1)]})
        self.assertTrue(both.whole)
        self.assertIsNone(united_coverage([None]))
        cut = united_coverage([first, second._replace(whole=False)])
        self.assertFalse(cut and cut.whole)


if __name__ == "__main__":
    unittest.main()

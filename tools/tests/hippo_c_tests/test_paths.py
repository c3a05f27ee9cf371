"""Paths of reports: what they are, and that equal calls are shared, so that deep recursion takes little."""
import random
import unittest
from unittest import mock

from . import common  # noqa: F401

from hippo_c.findings import shortened
from hippo_c.paths import Path, Paths
from hippo_c.program import parse_site, show_site
from hippo_c.reports import grouped

DEPTH = 1500


class Reads(unittest.TestCase):
    """Paths as they are read."""

    def test_paths_are_those_of_their_texts(self) -> None:
        """Whatever comes after another: deeper and less deep calls, other ones, and the same again."""
        chance = random.Random(1)
        sites = [show_site((name, "entry", number)) for name in ("f", "g", "main") for number in range(3)]
        paths, words = Paths(), [sites[0]]
        known: dict[tuple[str, ...], Path] = {}
        for _ in range(4000):
            way = chance.randrange(5)
            if way == 0:
                words = [chance.choice(sites), *words]
            elif way == 1:
                words = words[chance.randrange(len(words)) :]
            elif way == 2:
                words = [chance.choice(sites), *words[1:]]
            elif way == 3:
                words = [chance.choice(sites) for _ in range(chance.randrange(1, 6))]
            path = paths.read(" ".join(words))
            self.assertEqual(list(path), list(map(parse_site, words)))
            self.assertIs(known.setdefault(tuple(words), path), path)
            place = chance.randrange(len(words))
            self.assertEqual(
                (len(path), path[place], path[place - len(words)]),
                (len(words), parse_site(words[place]), parse_site(words[place])),
            )
            self.assertEqual(list(path[place:]), list(map(parse_site, words[place:])))
            self.assertEqual(path[:place], tuple(map(parse_site, words[:place])))
            self.assertEqual(list(path[len(words) :]), [])
            self.assertRaises(IndexError, path.__getitem__, len(words))

    def lines(self, depths: range) -> list[str]:
        """A report of each depth of a recursion."""
        return [
            f'report both entry {3 + depth} check 9000 closed 0 path @f:entry:1{" @f:next:4" * depth} @main:entry:0'
            for depth in depths
        ]

    def test_recursion_shares_its_calls(self) -> None:
        for depths in (range(DEPTH), range(DEPTH - 1, -1, -1)):
            paths = Paths()
            with mock.patch.object(paths, "joined", wraps=paths.joined) as joined:
                groups = grouped(self.lines(depths), paths)
            self.assertEqual(sorted(len(group.path) for group in groups), list(range(2, DEPTH + 2)))
            self.assertLess(joined.call_count, 4 * DEPTH)
            self.assertLess(len(paths.known), 3 * DEPTH)

    def test_calls_that_come_again_are_left_out(self) -> None:
        path = [parse_site(f"@f:entry:{number}") for number in (9, 1, 2, 1, 3, 2, 4)]
        self.assertEqual([site[2] for site in shortened(path)], [9, 1, 3, 2, 4])


if __name__ == "__main__":
    unittest.main()

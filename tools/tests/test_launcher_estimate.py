"""How `./hippo --build` estimates its time."""

from __future__ import annotations

import sys
import unittest
from pathlib import Path
from types import SimpleNamespace
from unittest import mock

TOP = Path(__file__).resolve().parents[2]
sys.path[:0] = [str(TOP / "tools"), str(TOP / "tools" / "launcher")]

import progress  # noqa: E402
from progress import AFTER_PROOFS, Plan  # noqa: E402

LIBRARIES = {"low": [], "side": [], "mid": ["low"], "hippo": ["mid", "side"]}
WEIGHTS = {"low": 100.0, "side": 300.0, "mid": 100.0, "hippo": 50.0}
NONE: frozenset[str] = frozenset()


class Estimates(unittest.TestCase):
    """Estimates for four crates, of which one depends on all others."""

    def plan(self, jobs: int, free: float) -> Plan:
        """A plan with these weights, on a machine of which other programs leave some processors."""
        sources = SimpleNamespace(libraries=LIBRARIES, crates=list(WEIGHTS))
        with mock.patch.object(progress, "weights_of", return_value=WEIGHTS), mock.patch.object(
            progress, "free_processors", return_value=free
        ):
            return Plan(sources, jobs)  # type: ignore[arg-type]

    def test_the_first_estimate_takes_what_the_machine_gives(self) -> None:
        self.assertEqual(self.plan(2, 2.0).whole, 350 + AFTER_PROOFS)
        self.assertEqual(self.plan(2, 1.0).whole, 2 * (350 + AFTER_PROOFS))
        self.assertEqual(self.plan(1, 4.0).whole, 550 + AFTER_PROOFS)

    def test_the_pace_follows_what_the_proofs_took(self) -> None:
        plan = self.plan(2, 2.0)
        self.assertEqual(plan.pace({}), 1.0)
        self.assertAlmostEqual(plan.pace({"low": 300.0, "mid": 300.0}), (600 + progress.FIRST) / (200 + progress.FIRST))
        usual = plan.remaining({"low": 100.0}, NONE, {})
        self.assertGreater(plan.remaining({"low": 300.0}, NONE, {}), 2 * usual)

    def test_what_is_kept_takes_no_time(self) -> None:
        plan = self.plan(2, 2.0)
        self.assertEqual(plan.remaining({}, frozenset({"low", "mid", "side"}), {}), 50 + AFTER_PROOFS)
        self.assertEqual(plan.remaining({}, frozenset(WEIGHTS), {}), AFTER_PROOFS)

    def test_a_running_proof_has_less_left(self) -> None:
        plan = self.plan(2, 2.0)
        self.assertEqual(plan.remaining({}, NONE, {"side": 250.0}), 250 + AFTER_PROOFS)

    def test_an_overdue_proof_is_never_expected_at_once(self) -> None:
        plan = self.plan(2, 2.0)
        left = plan.remaining({"low": 100.0, "mid": 100.0}, NONE, {"side": 900.0})
        self.assertEqual(left, 0.2 * 300 + 50 + AFTER_PROOFS)


if __name__ == "__main__":
    unittest.main()

"""For the gate: keeps the program that it proved, with a stamp of the sources, so that `./hippo` runs it."""

from __future__ import annotations

import sys
from pathlib import Path

TOP = Path(__file__).resolve().parents[2]
sys.path.append(str(TOP / "tools"))

from kept import PROVED, Kept  # noqa: E402
from sources import Failed, Sources, files_below, toolchain, WHOLE  # noqa: E402


def main() -> int:
    """Keeps the program that the gate made, unless a source changed after it was made, and returns the exit code."""
    try:
        sources = Sources(TOP)
        made = sources.made.stat().st_mtime_ns
        for crate in sources.crates:
            for part in WHOLE:
                for file in files_below(TOP / "crates" / crate / part):
                    if file.stat().st_ctime_ns > made:
                        raise Failed(f"{file} changed during the gate, so its program is not kept")
        Kept(TOP / PROVED).keep(sources.made, sources.digest(), sources.commit(), toolchain()[1])
    except (Failed, OSError) as fault:
        print(f"gate: {fault}", file=sys.stderr)
        return 2
    return 0


if __name__ == "__main__":
    sys.exit(main())

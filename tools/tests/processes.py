"""What tests ask of processes: which signals one hears, which run in a session, and the lines of a file that they write."""
from __future__ import annotations

import os
import signal


def lines_of(file: str) -> list[str]:
    """The lines of a file."""
    with open(file, encoding="utf-8") as text:
        return text.read().split()


def hears(process: int) -> bool:
    """Whether a process has a handler of its own for SIGTERM, which Python alone has not."""
    try:
        with open(f"/proc/{process}/status", encoding="ascii") as file:
            caught = next(line for line in file if line.startswith("SigCgt:"))
    except (OSError, StopIteration):
        return False
    return bool(int(caught.split()[1], 16) >> (signal.SIGTERM - 1) & 1)


def runs_in(session: int) -> bool:
    """Whether a process of a session still runs."""
    for name in os.listdir("/proc"):
        if name.isdecimal():
            try:
                with open(f"/proc/{name}/stat", encoding="latin-1") as text:
                    state, _, _, found = text.read().rpartition(")")[2].split()[:4]
            except OSError:
                continue
            if int(found) == session and state != "Z":
                return True
    return False

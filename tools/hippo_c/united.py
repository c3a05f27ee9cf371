"""The groups of all inputs as one list: those with one fingerprint are one group, with what each input shows of it."""
from __future__ import annotations

import re
from typing import Any

# What the message of a group ends with: the kind and the number of reports, which the page shows apart.
END = re.compile(r" \[[^\]]*\]$")


def united(answer: dict[str, Any], histories: list[list[dict[str, Any]]]) -> list[dict[str, Any]]:
    """The groups in the order of their first inputs, each with its reports in all inputs; numbers of entries are those of the first."""
    found: dict[tuple[str, int], dict[str, Any]] = {}
    for number, (item, lines) in enumerate(zip(answer["inputs"], histories), 1):
        seen: dict[str, int] = {}
        for group, history in zip(item["groups"], lines):
            mark = group["fingerprint"]
            seen[mark] = seen.get(mark, 0) + 1
            key = (mark, seen[mark])
            here = {"input": number, "numbers": item["numbers"], "reports": group["reports"]}
            if key not in found:
                message = END.sub("", group["message"])
                address = f"{mark[:16]}-{seen[mark]}" if seen[mark] > 1 else mark[:16]
                found[key] = {**group, "message": message, "history": history, "inputs": [here], "name": address}
            else:
                found[key]["reports"] += group["reports"]
                found[key]["inputs"].append(here)
    return list(found.values())

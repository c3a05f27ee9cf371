"""The answer as SARIF 2.1.0, the form that code scanning reads."""
import os
from urllib.parse import quote
from typing import Any

from .sources import line_of

SCHEMA = "https://json.schemastore.org/sarif-2.1.0.json"
RULES = {
    "missing-flush": (
        "Missing flush",
        "A store has to be durable at a check, and its cache line was not flushed after it.",
    ),
    "missing-fence": (
        "Missing fence",
        "A store has to be durable at a check, and no fence followed the flush of its cache line.",
    ),
    "missing-flush-and-fence": (
        "Missing flush and fence",
        "A store has to be durable at a check, and its cache line was " "not flushed after it, and no fence followed.",
    ),
    "trap": ("Trap", "The run ended with a trap."),
}


def sarif_of(answer: dict[str, Any]) -> dict[str, Any]:
    """A log with one run; results come by input and group."""
    results = []
    for item in answer["inputs"]:
        results += [result_of(group, item["numbers"]) for group in item["groups"]]
        for one in item["suppressed"]:
            results += [suppressed_result(group, one, item["numbers"]) for group in one["groups"]]
        if item["trap"]:
            results.append(trap_result(item["trap"]))
    ended = all(item["ended"].startswith("stop") for item in answer["inputs"])
    run = {
        "tool": {
            "driver": {
                "name": "hippo-c",
                "version": answer["version"],
                "semanticVersion": answer["version"],
                "rules": list(map(rule_of, RULES)),
            }
        },
        "columnKind": "unicodeCodePoints",
        "results": results,
        "originalUriBaseIds": {"SRCROOT": {"uri": uri_of(os.getcwd()) + "/"}},
        "invocations": [{"executionSuccessful": ended}],
        "properties": {"about": answer["about"], "program": answer["program"]},
    }
    return {"$schema": SCHEMA, "version": "2.1.0", "runs": [run]}


def rule_of(name: str) -> dict[str, Any]:
    """The rule of a kind of result."""
    title, text = RULES[name]
    return {
        "id": name,
        "name": title.title().replace(" ", ""),
        "shortDescription": {"text": title},
        "fullDescription": {"text": text},
        "help": {"text": text},
        "defaultConfiguration": {"level": "error" if name == "trap" else "warning"},
    }


def result_of(group: dict[str, Any], numbers: list[int]) -> dict[str, Any]:
    """A group as a result."""
    text = group["message"]
    if group["suggestion"]:
        text += f'. Suggestion: {group["suggestion"]["text"]}'
    related = [
        (group["flush"], "no fence follows this flush"),
        (group["check"], "the check"),
        *((place, "called here") for place in group["calls"]),
    ]
    result = {
        "ruleId": group["kind"],
        "ruleIndex": list(RULES).index(group["kind"]),
        "level": "warning",
        "message": {"text": text},
        "locations": [location_of(group["store"])] if group["store"] else [],
        "relatedLocations": [
            {**location_of(place), "id": number, "message": {"text": what}}
            for number, (place, what) in enumerate((one for one in related if one[0]), 1)
        ],
        "partialFingerprints": {"hippoStore/v2": group["fingerprint"]},
        "occurrenceCount": group["reports"],
        "properties": {"input": numbers, "sites": group["sites"]},
    }
    if group["suggestion"] and group["suggestion"]["edits"]:
        result["fixes"] = [fix_of(group["suggestion"])]
    return result


def suppressed_result(group: dict[str, Any], by: dict[str, Any], numbers: list[int]) -> dict[str, Any]:
    """A group that the source suppresses, as a result with the reason."""
    result = result_of({**group, "fingerprint": "", "suggestion": None}, numbers)
    del result["partialFingerprints"]
    suppression = {"kind": "inSource", "justification": by["reason"], "location": location_of(by["place"])}
    return {**result, "suppressions": [suppression]}


def fix_of(suggestion: dict[str, Any]) -> dict[str, Any]:
    """The edits of a suggestion as a fix."""
    changes: dict[str, list[dict[str, Any]]] = {}
    for edit in suggestion["edits"]:
        region = {
            "startLine": edit["line"],
            "startColumn": column_of(edit),
            "endLine": edit["end_line"],
            "endColumn": column_of({"file": edit["file"], "line": edit["end_line"], "column": edit["end_column"]}),
        }
        changes.setdefault(edit["file"], []).append(
            {"deletedRegion": region, "insertedContent": {"text": edit["text"]}}
        )
    return {
        "description": {"text": suggestion["text"]},
        "artifactChanges": [
            {"artifactLocation": artifact_of(file), "replacements": parts} for file, parts in changes.items()
        ],
    }


def trap_result(trap: dict[str, Any]) -> dict[str, Any]:
    """A trap as a result."""
    return {
        "ruleId": "trap",
        "ruleIndex": list(RULES).index("trap"),
        "level": "error",
        "message": {"text": f'The run ended with a trap: {trap["meaning"]}'},
        "locations": [location_of(trap["place"])] if trap["place"] else [],
    }


def uri_of(path: str) -> str:
    """A path as the URI of a file; a relative path stays relative."""
    raw = quote(path.encode("utf-8", "surrogateescape"))
    return f"file://{raw}" if os.path.isabs(path) else raw


def location_of(place: dict[str, Any]) -> dict[str, Any]:
    """A place as a location."""
    region = {"startLine": place["line"]}
    if place["exact"] and place["column"]:
        region["startColumn"] = column_of(place)
    return {"physicalLocation": {"artifactLocation": artifact_of(place["file"]), "region": region}}


def artifact_of(file: str) -> dict[str, Any]:
    """A file as an artifact."""
    return {"uri": uri_of(file)} if os.path.isabs(file) else {"uri": uri_of(file), "uriBaseId": "SRCROOT"}


def column_of(place: dict[str, Any]) -> int:
    """The column in characters; clang counts bytes."""
    line = line_of(place["file"], place["line"]) or ""
    return len(line.encode("utf-8", "replace")[: place["column"] - 1].decode("utf-8", "replace")) + 1

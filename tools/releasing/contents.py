"""What a release contains, as a document in the form of SPDX 2.3: the files with their digests, and what the program is built from."""

from __future__ import annotations

import json
import re
import time
from pathlib import Path
from typing import Any

from .origin import Origin
from .tree import digest_of, files_of

NAMESPACE = "urn:hippo:{name}:{commit}"
# Crates of the toolchain that every program has.
ALWAYS = ("core", "std")


def kit_crates(crates_list: str) -> list[str]:
    """The libraries of the toolchain that crates.txt names, and those that every program has."""
    lines = [line.split("#", 1)[0].strip() for line in crates_list.splitlines()]
    pairs = [line.partition(":") for line in lines if line]
    own = {head.split()[0] for head, _, _ in pairs}
    return sorted({name for _, _, rest in pairs for name in rest.split()} - own | set(ALWAYS))


def package(name: str, version: str, note: str) -> dict[str, Any]:
    """A part of the release. No licence is stated, since the owner has not chosen one."""
    return {
        "SPDXID": f"SPDXRef-{re.sub('[^A-Za-z0-9.-]', '-', name)}",
        "name": name,
        "versionInfo": version,
        "comment": note,
        "downloadLocation": "NOASSERTION",
        "licenseConcluded": "NOASSERTION",
        "licenseDeclared": "NOASSERTION",
        "copyrightText": "NOASSERTION",
        "filesAnalyzed": False,
    }


def file_entry(folder: Path, name: Path) -> dict[str, Any]:
    """A file of the release with its digest."""
    return {
        "SPDXID": f"SPDXRef-File-{re.sub('[^A-Za-z0-9.-]', '-', str(name))}",
        "fileName": f"./{name}",
        "checksums": [{"algorithm": "SHA256", "checksumValue": digest_of(folder / name)}],
        "licenseConcluded": "NOASSERTION",
        "copyrightText": "NOASSERTION",
    }


def document(origin: Origin, folder: Path, crates_list: str) -> dict[str, Any]:
    """The whole document."""
    files = [file_entry(folder, name) for name in files_of(folder)]
    parts = [
        package(name, origin.toolchain, "a library of the Rattle toolchain, linked into the program")
        for name in kit_crates(crates_list)
    ]
    whole = package("hippo", origin.version, f"proved from commit {origin.commit} by {origin.toolchain}")
    relations = [
        {"spdxElementId": "SPDXRef-DOCUMENT", "relationshipType": "DESCRIBES", "relatedSpdxElement": whole["SPDXID"]}
    ]
    relations += [
        {"spdxElementId": whole["SPDXID"], "relationshipType": "CONTAINS", "relatedSpdxElement": part["SPDXID"]}
        for part in [*parts, *files]
    ]
    created = time.strftime("%Y-%m-%dT%H:%M:%SZ", time.gmtime(origin.time))
    return {
        "spdxVersion": "SPDX-2.3",
        "dataLicense": "CC0-1.0",
        "SPDXID": "SPDXRef-DOCUMENT",
        "name": origin.name,
        "documentNamespace": NAMESPACE.format(name=origin.name, commit=origin.commit),
        "creationInfo": {"created": created, "creators": [f"Tool: hippo-release-{origin.version}"]},
        "packages": [whole, *parts],
        "files": files,
        "relationships": relations,
    }


def write_contents(origin: Origin, folder: Path, crates_list: str, target: Path) -> None:
    """Writes the document."""
    text = json.dumps(document(origin, folder, crates_list), indent=2, ensure_ascii=False)
    target.write_text(f"{text}\n", encoding="utf-8")

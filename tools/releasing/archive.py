"""The archive of a release: the same bytes for the same files."""

from __future__ import annotations

import gzip
import tarfile
from pathlib import Path
from typing import IO, cast

from .origin import Origin


def entry(origin: Origin, folder: Path, path: Path) -> tarfile.TarInfo:
    """The head of a file or folder in the archive, without anything of the machine that made it."""
    info = tarfile.TarInfo(str(Path(origin.name) / path.relative_to(folder)))
    info.mtime = origin.time
    info.mode = path.stat().st_mode & 0o777
    if path.is_dir():
        info.type = tarfile.DIRTYPE
    else:
        info.size = path.stat().st_size
    return info


def write_archive(origin: Origin, folder: Path, target: Path) -> None:
    """Writes the folder of a release as an archive."""
    with target.open("wb") as raw, gzip.GzipFile("", "wb", 9, raw, mtime=0) as packed:
        with tarfile.open(fileobj=cast(IO[bytes], packed), mode="w", format=tarfile.USTAR_FORMAT) as archive:
            for path in [folder, *sorted(folder.rglob("*"))]:
                info = entry(origin, folder, path)
                if path.is_dir():
                    archive.addfile(info)
                else:
                    with path.open("rb") as file:
                        archive.addfile(info, file)

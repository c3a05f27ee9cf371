"""The bytecode of these tools from one call to the next.

Python takes a kept module whose source has the same size and time, in seconds. So the folder also has a digest of all sources in its
name: no file of another state of the tools is ever taken."""
from __future__ import annotations

import hashlib
import os
import shutil
import sys
from importlib.machinery import FileFinder, SourceFileLoader
from types import CodeType

TOOLS = os.path.dirname(os.path.dirname(os.path.realpath(__file__)))
PACKAGES = ("hippo_c", "lowering")
MOST_FOLDERS = 8


def cache_folder() -> str:
    """The folder in which tools of hippo keep what they can make again; nothing if there is no place for one."""
    base = os.environ.get("XDG_CACHE_HOME") or os.path.join(os.path.expanduser("~"), ".cache")
    return os.path.join(base, "hippo-c") if os.path.isabs(base) else ""


def is_own(folder: str) -> bool:
    """Whether a folder belongs to this user, and nobody else may write to it."""
    state = os.lstat(folder)
    return state.st_uid == os.getuid() and not state.st_mode & 0o022


def digest_of_sources() -> str:
    """What identifies the sources of the tools: their names and contents."""
    found = hashlib.sha256(sys.version.encode())
    for package in PACKAGES:
        folder = os.path.join(TOOLS, package)
        for name in sorted(os.listdir(folder) if os.path.isdir(folder) else []):
            if name.endswith(".py"):
                with open(os.path.join(folder, name), "rb") as file:
                    content = file.read()
                found.update(f"{package}/{name} {len(content)}\n".encode() + content)
    return found.hexdigest()


class Loader(SourceFileLoader):
    """Loads a module of these packages, whose bytecode is in a folder."""

    folder = ""

    def get_code(self, fullname: str) -> CodeType | None:
        """The code of a module, whose bytecode is written if it is not there yet."""
        before = sys.pycache_prefix, sys.dont_write_bytecode
        sys.pycache_prefix, sys.dont_write_bytecode = self.folder, False
        try:
            return super().get_code(fullname)
        finally:
            sys.pycache_prefix, sys.dont_write_bytecode = before


def finder_of(path: str) -> FileFinder:
    """Finds the modules of these packages, and no others."""
    if os.path.realpath(path) not in [os.path.join(TOOLS, package) for package in PACKAGES]:
        raise ImportError
    return FileFinder(path, (Loader, [".py"]))


def keep() -> None:
    """Makes Python keep the bytecode of the modules that are imported from now on. Where that cannot be, it compiles them."""
    try:
        if not (base := cache_folder()):
            return
        folder = os.path.join(base, "bytecode", digest_of_sources())
        if not os.path.isdir(folder):
            os.makedirs(folder, mode=0o700, exist_ok=True)
            leave_out_old(os.path.dirname(folder))
        if not all(map(is_own, (os.path.dirname(folder), folder))):
            return
    except OSError:
        return
    Loader.folder = folder
    sys.path_hooks.insert(0, finder_of)
    for path in [path for path in sys.path_importer_cache if path.startswith(TOOLS + os.sep)]:
        del sys.path_importer_cache[path]


def leave_out_old(folder: str) -> None:
    """Removes all but the newest folders of bytecode."""
    with os.scandir(folder) as entries:
        found = sorted(entries, key=lambda entry: entry.stat().st_mtime, reverse=True)
    for entry in found[MOST_FOLDERS:]:
        shutil.rmtree(entry.path, ignore_errors=True)

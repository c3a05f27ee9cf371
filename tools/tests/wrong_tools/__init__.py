"""Wrong tools: edits of tools/ that change a verdict, and the tests that must fail with each of them.

The table is in the modules `of_*`. `tools/tests/try_wrong_tools.py` applies each edit to a copy of the repository."""
from __future__ import annotations

from .edit import Edit
from .of_builds import EDITS as OF_BUILDS
from .of_cpp import EDITS as OF_CPP
from .of_explore import EDITS as OF_EXPLORE
from .of_explore_judged import EDITS as OF_EXPLORE_JUDGED
from .of_hippo_c import EDITS as OF_HIPPO_C
from .of_hippo_c_files import EDITS as OF_HIPPO_C_FILES
from .of_launcher import EDITS as OF_LAUNCHER
from .of_lowering import EDITS as OF_LOWERING
from .of_pmdk import EDITS as OF_PMDK
from .of_refusals import EDITS as OF_REFUSALS
from .of_runtime import EDITS as OF_RUNTIME
from .of_suppressions import EDITS as OF_SUPPRESSIONS

__all__ = ["EDITS", "Edit"]
EDITS: list[Edit] = [
    *OF_LOWERING,
    *OF_REFUSALS,
    *OF_RUNTIME,
    *OF_CPP,
    *OF_HIPPO_C,
    *OF_HIPPO_C_FILES,
    *OF_BUILDS,
    *OF_SUPPRESSIONS,
    *OF_EXPLORE,
    *OF_EXPLORE_JUDGED,
    *OF_LAUNCHER,
    *OF_PMDK,
]

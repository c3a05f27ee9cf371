"""Edits of what hippo-c leaves out for a suppression in the source, and of what it says about flushes and lines that did not run."""
from __future__ import annotations

from .edit import Edit

SUPPRESSIONS, MARKS, SCRATCH = (f"tools/hippo_c/{name}.py" for name in ("suppressions", "marks", "scratch"))
TEST = "hippo_c_tests.test_suppressions"
PARTS = "hippo_c_tests.test_page_parts"

EDITS = [
    Edit(
        "suppression_hides_its_line",
        "leaves out each store of the line on which a suppression stands",
        MARKS,
        "        return self.begin <= offset < self.end\n",
        "        return self.begin - 80 <= offset < self.end\n",
        f"{TEST}.Suppressions.test_comments",
    ),
    Edit(
        "suppression_of_the_line_before",
        "takes a comment on a line of its own for one about the statement before it",
        MARKS,
        '.strip(" \\t"):',
        ".strip():",
        f"{TEST}.Marks.test_statements",
    ),
    Edit(
        "suppression_after_a_block",
        "takes a comment after a block for one about its last statement",
        MARKS,
        '.strip(" \\t"):',
        '.strip(" \\t}"):',
        f"{TEST}.Marks.test_statements",
    ),
    Edit(
        "suppression_without_a_reason",
        "leaves out stores for which no reason is given",
        MARKS,
        'volatile\\s*,\\s*(?P<reason>\\S.*)"',
        'volatile\\s*,?\\s*(?P<reason>.*)"',
        f"{TEST}.Suppressions.test_no_suppression_without_a_reason",
    ),
    Edit(
        "suppression_hides_several_stores",
        "leaves out all stores of a statement that has several",
        SUPPRESSIONS,
        "(len(used[by]) > 1 or self.stores_of_macro(by, used[by]) > 1)",
        "False",
        f"{TEST}.Suppressions.test_comments",
    ),
    Edit(
        "suppression_hides_a_macro",
        "leaves out all stores of a macro",
        SUPPRESSIONS,
        "        return max(sum(node.stores for node in inside) + len(named), 1)\n",
        "        return 1\n",
        f"{TEST}.Suppressions.test_comments",
    ),
    Edit(
        "suppression_of_other_files",
        "leaves out stores at the same place of any other file",
        SUPPRESSIONS,
        "            if mark.covers(offset) and os.path.realpath(suppression.place.file) == path:\n",
        "            if mark.covers(offset):\n",
        f"{TEST}.Suppressions.test_other_files",
    ),
    Edit(
        "suppression_that_fits_nothing",
        "says nothing of a suppression that leaves out nothing",
        SUPPRESSIONS,
        "            if by not in used:\n",
        "            if False:\n",
        f"{TEST}.Suppressions.test_one_that_fits_nothing_is_a_warning",
    ),
    Edit(
        "scratch_field_hides_its_neighbours",
        "leaves out a store that a field with PERSISTENT_SCRATCH shares with another field",
        SCRATCH,
        "        return found[0] if found and all(found) else None\n",
        "        return next((one for one in found if one), None)\n",
        f"{TEST}.Suppressions.test_declarations",
    ),
    Edit(
        "scratch_hides_its_group",
        "takes the bytes of the first report for those of all reports of a store",
        SUPPRESSIONS,
        "                scratch = self.scratches.of(*stores[report.entry])\n",
        "                scratch = self.scratches.of(*stores[min(wanted)])\n",
        f"{TEST}.Suppressions.test_declarations",
    ),
    Edit(
        "suppressed_groups_are_not_counted",
        "does not say that it left out anything",
        "tools/hippo_c/diagnostics.py",
        "    if not checked.suppressed:\n",
        "    if True:\n",
        f"{TEST}.Suppressions.test_the_last_line_counts",
    ),
    Edit(
        "line_ran_on_each_input",
        "counts a line as not run that ran on one of the inputs",
        "tools/hippo_c/coverage.py",
        "        frozenset().union(*(part.ran for part in known)),\n",
        "        frozenset.intersection(*(part.ran for part in known)),\n",
        f"{PARTS}.Inputs.test_lines_that_no_input_ran",
    ),
    Edit(
        "each_fence_is_folded",
        "folds fences that make stores durable with those that change nothing",
        "tools/hippo_c/history.py",
        '        if event[1] == "fence" and changed == self.now:\n',
        '        if event[1] == "fence":\n',
        f"{PARTS}.Histories.test_fences_without_effect_are_one_event",
    ),
    Edit(
        "flush_covers_whole_lines",
        "names the cache lines of a flush in place of the bytes that it was given",
        "tools/hippo_c/flush_notes.py",
        "    if len(made.values) < 2 or flush.entries > 1:\n",
        "    if True:\n",
        "hippo_c_tests.test_storage.Storage.test_short_flush_is_named",
    ),
]

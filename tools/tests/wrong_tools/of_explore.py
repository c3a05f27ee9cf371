"""Edits of the engine of explore, whose answers change."""
from __future__ import annotations

from .edit import Edit

LINES, LAYERS, CRASH, OUTPUTS, FAILURES = (
    f"tools/explore/{name}.c" for name in ("lines", "layers", "crash", "outputs", "failures")
)
JUDGED = "hippo_c_tests.test_explore_judged"
BETWEEN = f"{JUDGED}.Reports.test_a_store_between_a_flush_and_a_fence"
FORMS = "hippo_c_tests.test_native.Traces.test_forms_that_clang_rarely_writes"
RING = "hippo_c_tests.test_explore.Images.test_the_ring_buffer"
MARKED = "hippo_c_tests.test_explore_bugs.Bugs.test_marked_operations_and_acknowledgements"

EDITS = [
    Edit(
        "engine_makes_all_durable_at_a_fence",
        "takes in the engine what was stored after a flush of its line for durable at the fence",
        LINES,
        "lines[queue[i]].durable = lines[queue[i]].flushed;",
        "lines[queue[i]].durable = lines[queue[i]].count;",
        BETWEEN,
    ),
    Edit(
        "engine_flushes_the_first_line",
        "takes in the engine a flush of a range for one of its first line",
        LINES,
        "for (u64 number = first; number < first + count; number++) {",
        "for (u64 number = first; number < first + 1; number++) {",
        FORMS,
    ),
    Edit(
        "engine_forgets_a_fence",
        "calls in the engine a missing flush a missing flush and fence",
        LINES,
        "all_flushed ? MISSING_FENCE : fenced ? MISSING_FLUSH : MISSING_BOTH",
        "all_flushed ? MISSING_FENCE : fenced ? MISSING_BOTH : MISSING_BOTH",
        BETWEEN,
    ),
    Edit(
        "images_without_stores_after_a_flush",
        "takes what was stored after a flush of its line for durable in the images of a power cut",
        LAYERS,
        "  line->durable = line->flushed;\n",
        "  line->durable = line->flushed = line->count;\n",
        f"{JUDGED}.Reports.test_images_after_a_fence",
    ),
    Edit(
        "images_of_whole_lines",
        "tries each line as it was first and last, and not between",
        LAYERS,
        "    if (upto < line->durable) continue;\n",
        "    if (upto < line->durable || (upto > line->durable && upto < line->count)) continue;\n",
        RING,
    ),
    Edit(
        "pending_line_is_forgotten",
        "takes a line that is flushed and not fenced for one that a power cut does not change",
        LAYERS,
        "if (line->count == line->durable && line->open == NONE) {",
        "if (line->count == line->flushed && line->open == NONE) {",
        RING,
    ),
    Edit(
        "engine_image_with_a_stale_line",
        "leaves the first line of an image as it was durable",
        CRASH,
        "  for (u32 i = 0; i < pending_count; i++) memcpy(REGION + (u64)pending[i].line * LINE, pending[i].contents",
        "  for (u32 i = 1; i < pending_count; i++) memcpy(REGION + (u64)pending[i].line * LINE, pending[i].contents",
        RING,
    ),
    Edit(
        "image_is_skipped_as_equal",
        "takes images for equal in which the next run reads values that differ above their lowest bit",
        "tools/explore/trie.c",
        "static u32 place_of(u32 node, u64 value) {\n",
        "static u32 place_of(u32 node, u64 value) {\n  value &= 1;\n",
        RING,
    ),
    Edit(
        "recovery_is_not_cut",
        "tries no second power cut in the recovery from the first one",
        CRASH,
        "if (!stores || current.level >= most_levels) return;",
        "if (!stores || current.level >= 1) return;",
        "hippo_c_tests.test_explore.Command.test_a_bug_in_recovery_is_shown_with_its_lines",
    ),
    Edit(
        "long_recoveries_do_not_end",
        "takes a recovery that takes many times the turns of the run for one that does not end",
        CRASH,
        "  turn_limit = whole_limit;\n  run_image(chosen);\n",
        "  run_image(chosen);\n",
        "hippo_c_tests.test_explore_bugs.Bugs.test_a_long_recovery_and_one_that_does_not_end",
    ),
    Edit(
        "power_is_not_cut_before_a_print",
        "tries no power cut between a store and the number that is printed after it",
        CRASH,
        "static int is_point_before(u32 print) { return tells_prints() && ",
        "static int is_point_before(u32 print) { return 0 && ",
        "hippo_c_tests.test_explore_bugs.Bugs.test_a_power_cut_before_a_print",
    ),
    Edit(
        "engine_ignores_the_status",
        "ignores `--status` in the engine, so that main may return another number after a power cut",
        FAILURES,
        "return checks_status && run->status != crashed_status;",
        "return 0;",
        "hippo_c_tests.test_crash.Crash.test_a_status_counts_where_it_is_asked_for",
    ),
    Edit(
        "acknowledged_operation_may_be_lost",
        "takes an operation that printed a number before a power cut for one that may be lost",
        OUTPUTS,
        "if (!is_acknowledged && prints_are(",
        "if (prints_are(",
        MARKED,
    ),
    Edit(
        "half_done_operation_is_right",
        "takes the output of an operation that is half done for right",
        OUTPUTS,
        "  if (!is_new_cause()) return 1;\n",
        "  if (!is_acknowledged || !is_new_cause()) return 1;\n",
        "hippo_c_tests.test_explore_bugs.Bugs.test_operations_that_only_their_outputs_show",
    ),
    Edit(
        "mark_of_the_recovery_is_ignored",
        "takes the recovery for over at the first number although the program says where it ends",
        "tools/explore/machine.c",
        "if (!hippo_program_marks_recovery && ",
        "if (",
        "hippo_c_tests.test_explore_ends.Ends.test_marks_of_the_end_of_the_recovery",
    ),
    Edit(
        "volatile_memory_is_kept",
        "begins a run in the engine with what the run before left in volatile memory",
        "tools/explore/machine.c",
        "    if (!hippo_hook_dirty_pages[page]) continue;\n",
        "    if (!hippo_hook_dirty_pages[page] || page) continue;\n",
        "hippo_c_tests.test_native.Restoring.test_runs_one_after_another",
    ),
]

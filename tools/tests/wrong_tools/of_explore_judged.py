"""Edits of what judges the engine of explore, and of what explore and crash show."""
from __future__ import annotations

from .edit import Edit

CONFIRMING, EXPLORING, NATIVE, JUDGING, VERDICTS = (
    f"tools/hippo_c/{name}.py" for name in ("confirming", "exploring", "native", "judging", "crash_verdicts")
)
OPERATIONS = "hippo_c_tests.test_explore_operations"
JUDGED, CONFIRMED = "hippo_c_tests.test_explore_judged", "hippo_c_tests.test_explore.Confirming"
FAILURE = f"{JUDGED}.Judged.test_no_word_of_a_failure_is_believed"

EDITS = [
    Edit(
        "reading_past_the_input_fails",
        "takes a run after a power cut that reads past its input for one that fails",
        "tools/hippo_c/crashing.py",
        "ended != PAST_INPUT and (",
        "(",
        "hippo_c_tests.test_crash.Crash.test_a_run_that_reads_past_its_input_does_not_fail",
    ),
    Edit(
        "engine_is_believed",
        "explores with an engine whose trace is not that of hippo",
        EXPLORING,
        "if own_ended.how != ended.how or not same_trace(path, own):",
        "if own_ended.how != ended.how:",
        f"{JUDGED}.Judged.test_an_engine_with_another_trace_is_refused",
    ),
    Edit(
        "ending_of_the_engine_is_believed",
        "explores with an engine whose runs end in another way",
        EXPLORING,
        "if own_ended.how != ended.how or not same_trace(path, own):",
        "if not same_trace(path, own):",
        f"{JUDGED}.Judged.test_an_engine_with_another_ending_is_refused",
    ),
    Edit(
        "failures_are_not_confirmed",
        "shows failures that the runs of hippo do not have",
        CONFIRMING,
        "is_one = followed.is_whole and followed.how == failure.ended and self.judge.fails(followed, failure.limit)",
        "is_one = bool(followed.crashes)",
        f"{CONFIRMED}.test_a_changed_answer_is_not_shown",
    ),
    Edit(
        "good_end_is_a_failure",
        "shows a run after a power cut as one that fails although it ends well",
        JUDGING,
        'return self.checks_status and self.first.how.startswith("stop") and how != self.first.how',
        "return True",
        FAILURE,
    ),
    Edit(
        "short_run_is_endless",
        "shows a run after a power cut as one that does not end although it was given few turns",
        JUDGING,
        "            return self.is_endless(followed, limit)\n",
        "            return True\n",
        f"{OPERATIONS}.Judged.test_a_run_of_few_turns_is_not_endless",
    ),
    Edit(
        "lost_stores_are_believed",
        "names as lost what the engine says",
        JUDGING,
        "not own <= lost or bool(own) != bool(lost)",
        "not lost <= lost",
        FAILURE,
    ),
    Edit(
        "place_of_a_trap_is_believed",
        "shows a failure whose run traps elsewhere",
        JUDGING,
        "        if trap and trap.path[0] != found.path[0]:\n",
        "        if trap and not trap.path:\n",
        FAILURE,
    ),
    Edit(
        "number_of_prints_is_believed",
        "tells the next run another number of prints than there may have been",
        JUDGING,
        "        if not is_asked and followed.is_whole:\n",
        "        if is_asked and followed.is_whole:\n",
        f"{OPERATIONS}.Judged.test_another_number_of_prints_is_refused",
    ),
    Edit(
        "another_print_is_lost",
        "names the last print before a power cut where the next run misses an earlier one",
        JUDGING,
        "(least, middle) if fails(middle) else (middle, most)",
        "(middle, most)",
        f"{OPERATIONS}.Judged.test_the_first_lost_print_is_named",
    ),
    Edit(
        "each_failure_loses_a_print",
        "calls each failure the loss of an acknowledged operation",
        JUDGING,
        "            if not most or fails(0):\n",
        "            if not most:\n",
        f"{OPERATIONS}.Judged.test_another_reason_is_no_lost_print",
    ),
    Edit(
        "lost_operations_end_crash_with_0",
        "ends with 0 where an operation is lost",
        VERDICTS,
        "    if confirmed.failures or confirmed.outputs:\n",
        "    if confirmed.failures:\n",
        f"{OPERATIONS}.Operations.test_crash_shows_marked_operations",
    ),
    Edit(
        "refused_reports_are_not_counted",
        "does not say that hippo refused reports of the engine",
        CONFIRMING,
        "            self.answer.refused += len(claimed - self.seen)\n",
        "",
        f"{CONFIRMED}.test_a_changed_report_is_not_shown",
    ),
    Edit(
        "outputs_are_not_confirmed",
        "shows outputs after a power cut that are those of a run without one",
        CONFIRMING,
        "        if printed in (wanted, other):\n",
        "        if printed is wanted:\n",
        f"{JUDGED}.Judged.test_no_word_of_an_operation_is_believed",
    ),
    Edit(
        "inputs_of_operations_are_believed",
        "compares what other inputs print than those with the operation and without it",
        "tools/hippo_c/operations.py",
        "        if numbers[first + removed :] == shorter[first:]:\n",
        "        if removed >= 0:\n",
        f"{JUDGED}.Judged.test_no_word_of_an_operation_is_believed",
    ),
    Edit(
        "failures_end_with_0",
        "ends with 0 where a run after a power cut fails",
        EXPLORING,
        "if confirmed.groups or confirmed.failures or",
        "if confirmed.groups or",
        "hippo_c_tests.test_explore.Command.test_a_bug_in_recovery_is_shown_with_its_lines",
    ),
    Edit(
        "behaviours_are_not_confirmed",
        "shows behaviours that the runs of hippo do not have",
        CONFIRMING,
        "            and followed.how == behaviour.ended\n",
        "",
        "hippo_c_tests.test_explore_page.Behaviours.test_a_changed_behaviour_is_not_shown",
    ),
    Edit(
        "reports_after_power_cuts_are_not_repaired",
        "leaves the reports of runs after power cuts out of the repair",
        "tools/hippo_c/repairing.py",
        "        results += [\n"
        '            check_crashed(session, given, f"crashed.{number}.trace") for number, given in enumerate(request.crashed, 1)\n'
        "        ]\n",
        '        results += [check_crashed(session, given, f"crashed.{number}.trace") for number, given in enumerate([], 1)]\n',
        "hippo_c_tests.test_explore_repair.Loop.test_a_recovery_that_only_power_cuts_reach",
    ),
    Edit(
        "no_image_ends_with_0",
        "ends with 0 where no image of a power cut was tried",
        EXPLORING,
        '    return 0 if found.summary.get("images") or not options.crashes else 2\n',
        "    return 0\n",
        "hippo_c_tests.test_explore_ends.Ends.test_a_state_that_is_refused_without_a_power_cut",
    ),
    Edit(
        "words_are_not_in_the_input",
        "shows numbers in place of the words of the command line",
        "tools/hippo_c/again.py",
        "return decoded(numbers) if self.has_words else ([], numbers)",
        "return [], numbers",
        "hippo_c_tests.test_explore_words.Words.test_the_search_changes_words",
    ),
    Edit(
        "engine_of_another_program",
        "runs the engine that the cache has of another program",
        NATIVE,
        "        self.path = kept(\n"
        '            f"{digest_of(text, source_digest().encode())}.engine", folder, lambda path: self.build(text, path)\n'
        "        )\n",
        '        self.path = kept(f"{digest_of(source_digest().encode())}.engine", folder, lambda path: self.build(text, path))\n',
        "hippo_c_tests.test_native.Building.test_an_engine_is_built_once",
    ),
]

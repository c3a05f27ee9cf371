"""Edits of what hippo-c reads, writes, leaves out and ends."""
from __future__ import annotations

from .edit import Edit

BASELINE, CRASH, ENDS = "hippo_c_tests.test_baseline", "hippo_c_tests.test_crash", "hippo_c_tests.test_ends"
NAMED, OUTPUTS = "hippo_c_tests.test_named_files", "hippo_c_tests.test_outputs"

EDITS = [
    Edit(
        "baseline_without_statements",
        "takes all stores of a function to one object for known",
        "tools/hippo_c/fingerprints.py",
        "    return group.missing, name, text or instruction_of(session, group), functions_of(session, group.path)\n",
        '    return group.missing, name, "", functions_of(session, group.path)\n',
        f"{BASELINE}.Baseline.test_a_new_statement_before_a_known_one_is_the_new_one",
    ),
    Edit(
        "baseline_without_numbers",
        "takes each more of equal statements for known",
        "tools/hippo_c/fingerprints.py",
        '    mark = "\\n".join([*kind, str(number)])\n',
        '    mark = "\\n".join(kind)\n',
        f"{BASELINE}.Baseline.test_one_more_of_equal_statements_is_new",
    ),
    Edit(
        "known_groups_hide_a_trap",
        "ends with 0 where all groups are known and the run trapped",
        "tools/hippo_c/checking.py",
        "    return code_of(results)\n",
        "    return code_of(results) if any(checked.groups for checked in results) else 0\n",
        f"{BASELINE}.Baseline.test_a_trap_is_not_left_out",
    ),
    Edit(
        "first_entries_alone_are_tried",
        "tries the first entries of a run alone where the time is short",
        "tools/hippo_c/images.py",
        "in strides(entries) if spread else [(1, 0)]:",
        "in [(1, 0)]:",
        f"{CRASH}.Images.test_spread_entries_reach_each_once",
    ),
    Edit(
        "nothing_tried_is_no_failure",
        "ends with 0 where no crash image was tried",
        "tools/hippo_c/crash_verdicts.py",
        '    return 0 if found.summary.get("behaviours") else 2\n',
        "    return 0\n",
        f"{CRASH}.Crash.test_a_limited_search_is_spread_over_the_run",
    ),
    Edit(
        "each_named_file_is_shown",
        "shows files that clang did not read",
        "tools/hippo_c/sources.py",
        "    return compiled_bytes(path, set().union(*(files().get(path, set()) for files in compiled)))\n",
        '    return open(path, "rb").read() if os.path.isfile(path) else b""\n',
        f"{NAMED}.Leaks.test_a_file_beside_the_program_is_not_read",
    ),
    Edit(
        "names_control_the_log",
        "writes the control characters of names",
        "tools/hippo_c/letters.py",
        '    return COMMANDS.sub("#<U+0023>", found)\n',
        "    return text\n",
        f"{NAMED}.Letters.test_letters",
    ),
    Edit(
        "output_replaces_an_input",
        "does not compare outputs with inputs",
        "tools/hippo_c/outputs.py",
        "        if mark in inputs:\n",
        "        if False:\n",
        f"{OUTPUTS}.Refused.test_an_output_that_is_an_input",
    ),
    Edit(
        "output_replaces_a_link",
        "writes a file in the place of a link",
        "tools/hippo_c/writing.py",
        "        with whole_file(os.path.realpath(path), path) as file:\n",
        "        with whole_file(path, path) as file:\n",
        f"{OUTPUTS}.Kinds.test_a_link_stays_and_its_target_is_written",
    ),
    Edit(
        "signal_leaves_programs",
        "ends what it started, and not what that started",
        "tools/hippo_c/ends.py",
        "            os.killpg(process.pid, number)\n",
        "            os.kill(process.pid, number)\n",
        f"{ENDS}.Signals.test_the_launcher_and_what_it_runs_end",
    ),
    Edit(
        "lost_answer_is_no_failure",
        "ends with 0 where standard output cannot be written",
        "tools/hippo_c/command.py",
        "        code, why = ends.FAILED, f'error: {shown(str(error.filename",
        "        code, why = 0, f'error: {shown(str(error.filename",
        "hippo_c_tests.test_check.Check.test_output_that_cannot_be_written",
    ),
]

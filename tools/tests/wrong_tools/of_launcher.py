"""Edits of the launcher."""
from __future__ import annotations

from .edit import Edit

KEPT, SOURCES = "tools/launcher/kept.py", "tools/launcher/sources.py"

EDITS = [
    Edit(
        "stale_program_is_proved",
        "runs the proved program of other sources",
        KEPT,
        '                fields.get("sources") == sources\n',
        '                fields.get("sources")\n',
        "test_launcher_proved.Proved.test_does_not_answer_for_other_sources",
    ),
    Edit(
        "replaced_program_is_proved",
        "runs another program in place of the proved one",
        KEPT,
        "            return (\n"
        '                fields.get("sources") == sources\n'
        "                and os.access(self.program, os.X_OK)\n"
        '                and digest_of(self.program) == fields["program"]\n'
        "            )\n",
        '            return fields.get("sources") == sources and os.access(self.program, os.X_OK) and bool(fields["program"])\n',
        "test_launcher_proved.Proved.test_runs_no_damaged_program",
    ),
    Edit(
        "specifications_are_not_read",
        "does not see a change of a specification",
        SOURCES,
        'WHOLE = ("src", "specs", "proofs")',
        'WHOLE = ("src", "proofs")',
        "test_launcher_proved.Proved.test_sees_new_and_lost_files",
    ),
    Edit(
        "names_of_sources_are_not_read",
        "does not see that a source has another name",
        SOURCES,
        '            total.update(b"%d %s %d " % (len(name), name, len(contents)))\n',
        "            del name\n",
        "test_launcher_proved.Proved.test_sees_a_file_with_another_name",
    ),
    Edit(
        "changed_source_is_kept",
        "keeps the program of the gate although a source changed after it was made",
        "tools/launcher/gate.py",
        "if file.stat().st_ctime_ns > made:",
        "if file.stat().st_ctime_ns < 0:",
        "test_launcher_proved.Gate.test_is_not_kept_where_a_source_changed_later",
    ),
]

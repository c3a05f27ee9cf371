"""Edits of what tools/lower refuses, and of what it notes."""
from __future__ import annotations

from .edit import Edit

EDITS = [
    Edit(
        "misspelled_section_is_volatile",
        "lowers data in a section such as `.pmem` as volatile data",
        "tools/lowering/globals.py",
        "    if LOOKS_PERSISTENT.match(name):\n",
        "    if LOOKS_PERSISTENT.match(name) is False:\n",
        "test_refusals.Refusals.test_section",
    ),
    Edit(
        "definition_decides_in_silence",
        "lowers data that one file declares persistent and another defines without the section",
        "tools/lowering/front_end.py",
        "    check_definitions(declared, text)\n",
        "    del declared\n",
        "test_refusals.Refusals.test_a_definition_that_is_not_persistent",
    ),
    Edit(
        "wide_division_by_zero_gives_a_number",
        "goes on after a division of 128 bits by zero",
        "tools/lowering/divisions.py",
        "  br i1 %is.zero, label %trap, label %done\n",
        "  br i1 false, label %trap, label %done\n",
        "test_built_traps.BuiltTraps.test_a_wide_division_by_zero",
    ),
    Edit(
        "flush_beside_its_address",
        "flushes the address of an `asm` operand whose form is another address",
        "tools/lowering/assembly.py",
        " and is_address(constraints, operand):",
        ":",
        "test_durability_text.Forms.test_an_operand_that_is_another_address_is_refused",
    ),
    Edit(
        "output_over_an_input",
        "writes an output over a file that it reads",
        "tools/lowering/outputs.py",
        '    if given := next((given for given in inputs if is_same(given, file)), ""):\n',
        '    if given := "":\n',
        "test_lower_ends.Ends.test_an_output_that_is_an_input",
    ),
    Edit(
        "lost_note_of_constructors",
        "does not note that constructors run in `main`",
        "tools/lowering/start.py",
        "                self.module.note(kind, NAMES=",
        "                str.format(kind, NAMES=",
        "test_lowering_notes.Notes.test_a_program_shows_each_note",
    ),
]

"""The notes on standard error: what the lowering changes or assumes, and a reader of the verdict should know.

A word in braces is filled in. docs/FROM_C.md says of each note what it means."""
from __future__ import annotations

NOTES = {
    # Changes.
    "constructors": "{NAMES}: constructors, called at the start of main",
    "destructors": "{NAMES}: destructors, called where main returns",
    "undefined": "{WORD} was written as zero",
    "volatile": "volatile was left out",
    "section": "section {SECTION} was left out",
    "weak": "no file defines the weak name {NAME}: it is null",
    "no_function": "{PLACE}no function whose address is taken has the type of this call: it traps",
    "array_end": "the end of an array of variable length was left out: its block stays until the function returns",
    "assembly": "asm '{TEXT}' was left out",
    "empty_assembly": "an empty asm statement was left out",
    "instruction": "the instruction {NAME} was left out",
    "valgrind": "requests to Valgrind have their defaults",
    "processor": "cpuid: a processor with CLFLUSH, CLFLUSHOPT and CLWB",
    "counter": "the counter of the processor grows by 1,000 at each reading",
    "throw": "throw: it traps, and no handler (catch) is in the program",
    "destroyed": "the persistent global @{NAME} is destroyed at the end of the run, and its destructor may store",
    "environment": "the environment of main is empty",
    "unsupported": "{WHAT}: a call of it traps",
    # What an option allows.
    "functions": "{NAMES}: as {OPTION} allows",
    "atomics": "atomic accesses: plain ones, as --single-thread allows",
    "thread_local": "thread-local data: a plain global, as --single-thread allows",
    "non_temporal": "a non-temporal store: a store with a flush after it, as --non-temporal allows",
    "array": "arrays of variable length: blocks of {BYTES} bytes, as --array-bound allows",
    "unaligned": "accesses at any address, as --unaligned allows",
    "arguments": "the arguments of main: those of --args",
    # What is assumed without an option.
    "heap": "{NAMES}: a volatile heap, whose size --heap states",
    "pool": "{NAMES}: the files are those of --pool",
    "time": "{NAMES}: the time is 0, unless --time-from-input reads it",
    "zone": "{NAMES}: the local time is Universal Time",
    "system": "{NAMES}: one process and one processor, and the environment of --environment",
    "nothing_persistent": "the program has no persistent data, so hippo has nothing to report",
}


def note_text(kind: str, parts: dict[str, str]) -> str:
    """The text of a note."""
    return NOTES[kind].format(**parts)

"""Edits of what takes a program from a build: unsupported code, kept texts, lists of commands, objects."""
from __future__ import annotations

from .edit import Edit

FUNCTION, UNSUPPORTED = "tools/lowering/function.py", "tools/lowering/unsupported.py"
COMMAND, COMMANDS = "tools/hippo_c/command.py", "tools/lowering/compile_commands.py"
OF_UNSUPPORTED, OF_BUILDS = "hippo_c_tests.test_unsupported", "hippo_c_tests.test_builds"
KEPT = "hippo_c_tests.test_kept_answers.Answers.test_the_headers_of_the_runtime"

EDITS = [
    Edit(
        "unsupported_part_is_left_out",
        "leaves out a part that has no form, where the function must trap, and goes on",
        FUNCTION,
        "                    self.refuse(refusal)\n                    return\n",
        "                    continue\n",
        f"{OF_UNSUPPORTED}.Unsupported.test_a_run_that_calls_one",
    ),
    Edit(
        "unsupported_main_traps",
        "takes a `main` that has no form as one that traps at once",
        UNSUPPORTED,
        'self.is_on and function.written_name != "@main" and refusal.kind',
        "self.is_on and refusal.kind",
        f"{OF_UNSUPPORTED}.Unsupported.test_main_and_globals_stay_refused",
    ),
    Edit(
        "unsupported_recovery_is_a_failure",
        "lets `crash` run a recovery that traps at a part without a form, which looks like one that fails",
        COMMAND,
        'TRAPPING = ("check", ',
        'TRAPPING = ("check", "crash", ',
        f"{OF_UNSUPPORTED}.Unsupported.test_strict_commands",
    ),
    Edit(
        "repaired_program_without_output",
        "writes a repaired program whose text output is left out, though no option says so",
        COMMAND,
        'STRICT = ("repair",)\n',
        "STRICT = ()\n",
        f"{OF_UNSUPPORTED}.Assumed.test_output_and_words",
    ),
    Edit(
        "kept_text_forgets_the_runtime",
        "takes a kept text though a header of the runtime is another one now",
        "tools/lowering/reads.py",
        "            self.of_modules.append(state)\n",
        "            del state\n",
        KEPT,
    ),
    Edit(
        "module_of_the_runtime_is_old",
        "takes a kept module of the runtime though clang would read other files",
        "tools/lowering/module_cache.py",
        '        if entry["digest"] != digest(head_of(entry["facts"]) + text) or not is_unchanged(state):\n',
        '        if entry["digest"] != digest(head_of(entry["facts"]) + text):\n',
        "test_module_cache.Cache.test_an_entry_of_other_files_is_not_taken",
    ),
    Edit(
        "arguments_of_a_file_are_shared",
        "compiles each file by the arguments that all files of a build share",
        COMMANDS,
        "    return shared(path) if arguments is None else arguments\n",
        "    return shared(path)\n",
        f"{OF_BUILDS}.Lists.test_each_file_by_its_own_arguments",
    ),
    Edit(
        "driver_gets_all_arguments",
        "compiles a driver by all arguments of the first file of a build",
        COMMANDS,
        "if all(pair in others for others in lists)]",
        "if any(pair in others for others in lists)]",
        f"{OF_BUILDS}.Lists.test_each_file_by_its_own_arguments",
    ),
    Edit(
        "changed_source_of_an_object",
        "shows the lines of a source that is not as it was when its object was compiled",
        "tools/hippo_c/built_objects.py",
        "                if digest_of(source) == unit.digest:\n",
        "                if digest_of(source):\n",
        f"{OF_BUILDS}.Objects.test_a_source_that_has_changed",
    ),
    Edit(
        "compiler_that_fails_passes",
        "ends `hippo-c cc` with 0 where the compiler failed",
        "tools/hippo_c/wrapper.py",
        "        return code if code > 0 else 128 - code\n",
        "        return 0\n",
        f"{OF_BUILDS}.Objects.test_compilers_and_what_they_refuse",
    ),
    Edit(
        "text_of_a_pipe_is_lost",
        "reads the first bytes of a pipe to see whether it is an object, so that the text of the pipe is gone",
        "tools/lowering/objects.py",
        "        if not stat.S_ISREG(os.stat(path).st_mode):\n            return False\n",
        "",
        "test_lower_ends.Ends.test_an_input_from_a_pipe",
    ),
]

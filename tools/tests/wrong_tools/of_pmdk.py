"""Edits of what a library of the size of PMDK needs: calls by pointer, jumps, requests, commit points, pools and the heap."""
from __future__ import annotations

from .edit import Edit

DISPATCH, JUMPS, REQUESTS = (f"tools/lowering/{name}.py" for name in ("dispatch", "jumps", "requests"))
DECLARED, COMMITS, POOLS = (f"tools/hippo_c/{name}.py" for name in ("declared", "commits", "pools"))
HEAP = "tools/runtime/heap.c"
BY_POINTER, JUMPING = "test_lowering.Lowered.test_calls_with_more_arguments", "test_lowering.Lowered.test_jumps"
CLEAN, REMOVED = (
    f"hippo_c_tests.test_declared.Declared.test_{name}" for name in ("clean_bytes", "removed_and_registered")
)
COMMIT, POOL = "hippo_c_tests.test_commit.Commit", "hippo_c_tests.test_pool.Pool"
SECOND_PART = "test_heap.Heap.test_second_part"

EDITS = [
    Edit(
        "prefix_of_the_arguments_traps",
        "lets a call by pointer reach no function that takes fewer arguments",
        DISPATCH,
        "    return type_.arguments[: len(wanted)] == wanted\n",
        "    return type_.arguments == wanted\n",
        BY_POINTER,
    ),
    Edit(
        "last_arguments_are_passed",
        "gives a function that takes fewer arguments the last ones",
        DISPATCH,
        '        given += [f"{piece} %a{number}" for number, piece in enumerate(signature.parameters)]\n',
        "        left_out = len(type_.arguments) - len(signature.parameters)\n"
        '        given += [f"{piece} %a{number + left_out}" for number, piece in enumerate(signature.parameters)]\n',
        BY_POINTER,
    ),
    Edit(
        "jump_ends_in_any_frame",
        "ends a jump in the first function on its way that calls `setjmp`",
        JUMPS,
        '    is_here = function.emit(f"icmp eq i64 {frame}, {function.activation}")\n',
        '    is_here = function.emit(f"icmp ne i64 {frame}, 0")\n',
        JUMPING,
    ),
    Edit(
        "calls_by_pointer_do_not_jump",
        "takes calls by pointer for calls that never jump",
        JUMPS,
        "        return [name for name, _ in self.module.dispatch.candidates(callee)]\n",
        "        return []\n",
        JUMPING,
    ),
    Edit(
        "exit_forgets_atexit",
        "does not run what `atexit` was given when `exit` is called below `main`",
        JUMPS,
        "    function.module.start.before_return(function)\n",
        "",
        "test_lowering.Lowered.test_exit_below_main",
    ),
    Edit(
        "request_is_ignored",
        "does not note the requests that take a range out of persistent memory",
        REQUESTS,
        "RANGES = {REGISTER_MAPPING: 1, REGISTER_FILE: 2, REMOVE_MAPPING: 1, SET_CLEAN: 1}\n",
        "RANGES = {REGISTER_MAPPING: 1, REGISTER_FILE: 2, SET_CLEAN: 1}\n",
        REMOVED,
    ),
    Edit(
        "registered_range_stays_out",
        "leaves a range out of the reports although the program registers it again",
        DECLARED,
        "            removed[:] = [part for item in removed for part in without(item, given)]\n",
        "            pass\n",
        REMOVED,
    ),
    Edit(
        "declared_range_is_too_wide",
        "leaves out a store of which a declared range has the first byte alone",
        DECLARED,
        "        return self.start <= address and address + size <= self.end\n",
        "        return self.start <= address < self.end\n",
        CLEAN,
    ),
    Edit(
        "later_stores_are_clean",
        "leaves out the stores to a range after the request that declares it clean",
        DECLARED,
        "        elif code == SET_CLEAN:\n",
        "        elif code == SET_CLEAN:\n            removed.append(given)\n",
        CLEAN,
    ),
    Edit(
        "commit_point_is_dropped",
        "checks a line once in each block, although the block goes through it twice",
        COMMITS,
        "            if not seen or is_elsewhere and frame in seen:\n",
        "            if not seen:\n",
        f"{COMMIT}.test_a_line_that_a_block_goes_through_twice",
    ),
    Edit(
        "commit_point_is_checked_at_its_end",
        "checks a commit point after its store",
        COMMITS,
        "        here = [(function.name, block.label, index) for index in firsts(at, stored, called)]\n",
        "        here = [(function.name, block.label, index + 1) for index in firsts(at, stored, called)]\n",
        f"{COMMIT}.test_a_line",
    ),
    Edit(
        "pool_without_its_last_stores",
        "writes a pool without the stores that are not durable when the run ends",
        POOLS,
        "            (line, len(lines.lines[line].stores))\n",
        "            (line, lines.lines[line].durable)\n",
        f"{POOL}.test_a_run_goes_on_where_the_last_one_ended",
    ),
    Edit(
        "last_bytes_of_a_pool_are_zero",
        "takes the whole words of the file of a pool, and zeros for its last bytes",
        "tools/lowering/runtime.py",
        "for place in range(0, len(content), 8)]\n",
        "for place in range(0, len(content) // 8 * 8, 8)]\n",
        f"{POOL}.test_a_file_of_any_length",
    ),
    Edit(
        "any_address_is_a_block",
        "takes an address outside of both parts of the heap for one of its blocks",
        HEAP,
        "    offset = second && further < SECOND ? FIRST + further : FIRST + SECOND;\n",
        "    offset = second ? FIRST + further % SECOND : FIRST + SECOND;\n",
        SECOND_PART,
    ),
]

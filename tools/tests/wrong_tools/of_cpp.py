"""Edits of what C++, floating-point numbers and vectors need: the lowering, the runtime, and the names and parts of hippo-c."""
from __future__ import annotations

from .edit import Edit

PARTS = "hippo_c_tests.test_parts.Parts"
ARENAS = "hippo_c_tests.test_arenas.Arenas"

EDITS = [
    Edit(
        "throw_is_dropped",
        "returns from a function in place of a `throw`",
        "tools/lowering/throws.py",
        """[f'  {TRAP}{found[1] or ""}', f'  unreachable{found[1] or ""}', ""]""",
        """["  ret void" if " void @" in head else f"  ret {head.split(' @')[0].split()[-1]} zeroinitializer", ""]""",
        "test_cpp.Cpp.test_vector_at",
    ),
    Edit(
        "throw_without_a_note",
        "does not note that a `throw` traps",
        "tools/lowering/module.py",
        '            self.note("throw")\n',
        "            pass\n",
        "test_lowering_notes.Notes.test_a_program_shows_each_note_of_cpp",
    ),
    Edit(
        "destructors_in_the_order_of_constructors",
        "destroys the global objects in the order in which it made them",
        "tools/runtime/ends.c",
        "  while (handler_count) hippo_call_handler(handlers[--handler_count]);\n",
        "  for (int number = 0; number < handler_count; number++) hippo_call_handler(handlers[number]);\n",
        "test_cpp.Cpp.test_global_order",
    ),
    Edit(
        "persistent_object_is_made_anew",
        "lowers a persistent global that its constructor makes at each start",
        "tools/lowering/module.py",
        "        for name in sorted(program.facts.made):\n",
        "        for name in sorted(program.facts.made)[1:]:\n",
        "test_cpp.Cpp.test_refused_persistent_maker",
    ),
    Edit(
        "vector_is_stored_by_elements",
        "stores 16 bytes of a vector as its elements, so that a crash image may tear them finer",
        "tools/lowering/memory.py",
        "        values, leaf = joined(function, leaf, values), as_words(leaf)\n",
        """        for number, value in enumerate(values):
            store_leaf(function, [value], leaf[2], element_at(function, address, number * size(leaf[2])), 1)
        return
""",
        "test_vector_stores.VectorStores.test_no_store_is_torn_finer_than_a_processor_does",
    ),
    Edit(
        "sum_is_cut",
        "cuts the digits of a sum that do not fit, in place of rounding",
        "tools/runtime/floats.c",
        "  uint64_t other = shifted_down(b.digits, a.exponent - b.exponent);\n",
        "  uint64_t other = a.exponent - b.exponent < 64 ? b.digits >> (a.exponent - b.exponent) : 0;\n",
        "test_floats.Floats.test_arithmetic_is_that_of_the_processor",
    ),
    Edit(
        "double_in_a_register_of_integers",
        "passes a variable argument of type double in a register of integers",
        "tools/lowering/variable_arguments.py",
        "    if copied is not None or type_ in FLOATS or is_vector(type_):\n        return 0\n",
        "    if copied is not None or is_vector(type_):\n        return 0\n",
        "test_cpp.Cpp.test_variable_arguments",
    ),
    Edit(
        "buckets_of_another_number",
        "gives a hash table the next greater number of buckets, and so another order of its elements",
        "tools/runtime/cpp_hashing.c",
        "    if (many[index] >= least) found = many[index];\n",
        "    if (many[index] > least + 2) found = many[index];\n",
        "test_cpp.Cpp.test_unordered_tables",
    ),
    Edit(
        "virtual_base_at_a_fixed_offset",
        "looks for a virtual base of an object at the offset in the table of its type",
        "tools/runtime/cpp_types.c",
        "  if (flags & VIRTUAL) offset = *(const long *)(*(char **)whole.object + offset);\n",
        "",
        "test_cpp.Cpp.test_dynamic_casts",
    ),
    Edit(
        "full_heap_gives_null",
        "returns a null pointer from `new` where the heap is full",
        "tools/runtime/cpp_memory.c",
        "    if (!handler && may_fail) return NULL;\n",
        "    if (!handler) return NULL;\n",
        "test_cpp.Cpp.test_block_beyond_the_heap",
    ),
    Edit(
        "refusal_in_a_header_of_the_library",
        "refuses a part of the library at the line of its header",
        "tools/lowering/users.py",
        "    nearest = module.users().nearest(function.written_name) if is_of_system(place) else []\n",
        "    nearest: list[tuple[str, str]] = []\n",
        "test_cpp.Cpp.test_refused_at_the_line",
    ),
    Edit(
        "object_begins_at_its_field",
        "takes the address of a field in an arena for that of its object",
        "tools/hippo_c/stored_types.py",
        "address - place.offset - sum(more)",
        "address - sum(more)",
        f"{ARENAS}.test_structures_of_c",
    ),
    Edit(
        "first_of_several_objects",
        "names an object of an arena at one of several places where it may begin",
        "tools/hippo_c/stored_types.py",
        "        return sorted(base for base in found if item.address <= base <= end and base % aligned == 0)\n",
        "        return sorted(base for base in found if item.address <= base <= end and base % aligned == 0)[:1]\n",
        f"{ARENAS}.test_structures_of_c",
    ),
    Edit(
        "tables_of_both_sides",
        "writes a part with virtual functions for a build whose other files have some too",
        "tools/hippo_c/part_ends.py",
        "        if VIRTUAL.search(text):\n            if other",
        "        if EXPORTED_TABLE.search(text):\n            if other",
        f"{PARTS}.test_virtual_functions_on_both_sides_are_refused",
    ),
    Edit(
        "part_without_constructors",
        "leaves the constructors and destructors of a part out of its build",
        "tools/hippo_c/part_ends.py",
        "            if entries:\n                shown",
        "            if len(entries) > 99:\n                shown",
        f"{PARTS}.test_constructors_and_destructors_of_c",
    ),
]

"""Types, their sizes and their layout, as tools/lowering reads and counts them. Sizes, alignments and offsets are those of clang on
x86-64, by hand from its data layout and, where clang 19 is installed, by clang itself."""
from __future__ import annotations

import shutil
import subprocess
import sys
import unittest
from pathlib import Path

sys.path.insert(0, str(Path(__file__).resolve().parents[1]))

from lowering import layout, types  # noqa: E402
from lowering.refusals import Refused  # noqa: E402
from lowering.tokens import Tokens  # noqa: E402

NAMED = {"%pair": "{ i8, i64 }", "%list": "{ %pair, ptr, [3 x i16] }", "%hidden": "opaque"}
# Each text with its size, its alignment, and the offsets of the fields of a struct.
LAYOUTS = {
    "i1": (1, 1, None),
    "i8": (1, 1, None),
    "i16": (2, 2, None),
    "i32": (4, 4, None),
    "i64": (8, 8, None),
    "ptr": (8, 8, None),
    "i24": (4, 4, None),
    "i48": (8, 8, None),
    "i65": (16, 16, None),
    "i128": (16, 16, None),
    "i256": (32, 16, None),
    "half": (2, 2, None),
    "float": (4, 4, None),
    "double": (8, 8, None),
    "x86_fp80": (16, 16, None),
    "fp128": (16, 16, None),
    "{ i8, x86_fp80 }": (32, 16, (0, 16)),
    "<16 x i8>": (16, 16, None),
    "<2 x float>": (8, 8, None),
    "<3 x i32>": (16, 16, None),
    "<8 x i1>": (1, 1, None),
    "{ i8, <4 x i32> }": (32, 16, (0, 16)),
    "[3 x i16]": (6, 2, None),
    "[0 x i64]": (0, 8, None),
    "[2 x [3 x i8]]": (6, 1, None),
    "{}": (0, 1, ()),
    "{ i8, i64 }": (16, 8, (0, 8)),
    "{ i64, i8 }": (16, 8, (0, 8)),
    "{ i8, i8, i16, i32 }": (8, 4, (0, 1, 2, 4)),
    "{ i8, i128 }": (32, 16, (0, 16)),
    "{ i8, { i8, i32 }, i8 }": (16, 4, (0, 4, 12)),
    "{ i8, [3 x i16] }": (8, 2, (0, 2)),
    "<{ i8, i64 }>": (9, 1, (0, 1)),
    "<{ i16, <{ i8, i32 }> }>": (7, 1, (0, 2)),
    "{ i8, <{ i8, i32 }>, i16 }": (8, 2, (0, 1, 6)),
}


def read(text: str) -> types.Type:
    """The type of a text."""
    return types.read_type(Tokens(text), dict(NAMED))


class Reading(unittest.TestCase):
    """Types from their texts."""

    def test_scalars_stand_for_themselves(self) -> None:
        for text in ("i1", "i64", "i24", "i128", "ptr", "void"):
            self.assertEqual(read(text), text)

    def test_arrays_and_structs_are_read_inside_out(self) -> None:
        self.assertEqual(read("[2 x { i8, [3 x ptr] }]"), ("array", 2, ("struct", ("i8", ("array", 3, "ptr")))))
        self.assertEqual(read("<{ i8, i64 }>"), ("packed", ("i8", "i64")))
        self.assertEqual(read("{}"), ("struct", ()))

    def test_named_types_are_written_out(self) -> None:
        pair = ("struct", ("i8", "i64"))
        self.assertEqual(read("%list"), ("struct", (pair, "ptr", ("array", 3, "i16"))))

    def test_only_the_type_is_taken(self) -> None:
        tokens = Tokens("[2 x i8] zeroinitializer")
        types.read_type(tokens, {})
        self.assertEqual(tokens.peek(), "zeroinitializer")

    def test_what_is_not_in_the_subset_is_refused_with_its_kind(self) -> None:
        for text, kind in [
            ("ppc_fp128", "form"),
            ("<vscale x 4 x i32>", "vector"),
            ("i8192", "width"),
            ("token", "form"),
            ("%unknown", "form"),
        ]:
            with self.subTest(text), self.assertRaises(Refused) as refused:
                read(text)
            self.assertEqual(refused.exception.kind, kind)

    def test_the_widest_integer_is_read(self) -> None:
        self.assertEqual(read(f"i{types.WIDEST}"), f"i{types.WIDEST}")

    def test_a_struct_that_is_not_closed_is_refused(self) -> None:
        with self.assertRaises(Refused):
            read("{ i8, i16")

    def test_a_type_is_shown_as_it_is_written(self) -> None:
        for text in ("i64", "[3 x { i8, ptr }]", "{}"):
            self.assertEqual(types.show_type(read(text)), text)


class Sizes(unittest.TestCase):
    """Sizes, alignments and offsets."""

    def test_sizes_alignments_and_offsets_are_those_of_the_table(self) -> None:
        for text, (size, alignment, offsets) in LAYOUTS.items():
            with self.subTest(text):
                type_ = read(text)
                self.assertEqual((types.size(type_), types.alignment(type_)), (size, alignment))
                if offsets is not None:
                    self.assertEqual(types.field_offsets(type_)[:-1], offsets)

    def test_the_table_is_clangs(self) -> None:
        clang = shutil.which("clang-19")
        if clang is None:
            self.skipTest("clang-19 is not installed")
        lines = ['target triple = "x86_64-pc-linux-gnu"']
        for number, text in enumerate(LAYOUTS):
            lines.append(f"@size{number} = constant i64 ptrtoint (ptr getelementptr ({text}, ptr null, i64 1) to i64)")
            align = f"ptr getelementptr ({{ i8, {text} }}, ptr null, i64 0, i32 1)"
            lines.append(f"@align{number} = constant i64 ptrtoint ({align} to i64)")
        done = subprocess.run(
            [clang, "-w", "-S", "-O1", "-x", "ir", "-", "-o", "-"],
            input="\n".join(lines),
            capture_output=True,
            text=True,
            check=True,
        )
        labelled = self.quads(done.stdout)
        values = dict(zip(labelled[::2], labelled[1::2]))
        found = {text: (values[f"size{number}"], values[f"align{number}"]) for number, text in enumerate(LAYOUTS)}
        self.assertEqual(found, {text: (size, alignment) for text, (size, alignment, _) in LAYOUTS.items()})

    @staticmethod
    def quads(assembly: str) -> list[str | int]:
        """The labels of an assembly text, each with the number after it."""
        found: list[str | int] = []
        for line in assembly.splitlines():
            words = line.replace(":", " :").split()
            if len(words) > 1 and words[1] == ":" and words[0].startswith(("size", "align")):
                found.append(words[0])
            elif words and words[0] == ".quad":
                found.append(int(words[1]))
        return found

    def test_an_incomplete_struct_has_no_size(self) -> None:
        with self.assertRaisesRegex(Refused, "incomplete"):
            types.size(read("%hidden"))

    def test_an_element_has_its_offset_and_its_type(self) -> None:
        self.assertEqual(types.element(read("[4 x i32]"), 3), (12, "i32"))
        self.assertEqual(types.element(read("{ i8, %pair, i16 }"), 2), (24, "i16"))


class Pieces(unittest.TestCase):
    """What registers of the subset hold of a value."""

    def test_an_integer_is_held_in_the_next_width(self) -> None:
        self.assertEqual(
            [types.container(text) for text in ("i1", "i3", "i9", "i24", "i33", "ptr")],
            ["i1", "i8", "i16", "i32", "i64", "ptr"],
        )

    def test_an_integer_above_64_bits_is_held_in_words(self) -> None:
        self.assertEqual([len(types.pieces(text)) for text in ("i65", "i128", "i129")], [2, 2, 3])

    def test_an_aggregate_is_held_in_the_pieces_of_its_fields(self) -> None:
        self.assertEqual(types.pieces(read("{ i8, [2 x i128], ptr }")), ("i8", "i64", "i64", "i64", "i64", "ptr"))

    def test_a_large_array_is_held_in_no_register(self) -> None:
        with self.assertRaisesRegex(Refused, "a register holds at most 64 elements"):
            types.pieces(("array", types.MOST_PIECES + 1, "i8"))

    def test_leaves_have_their_offsets(self) -> None:
        self.assertEqual(
            types.leaves(read("{ i8, [2 x i16], %pair }")), [(0, "i8"), (2, "i16"), (4, "i16"), (8, "i8"), (16, "i64")]
        )


class Layout(unittest.TestCase):
    """The type of the subset under which each byte lies where LLVM has it."""

    def test_a_packed_struct_whose_fields_lie_naturally_is_a_struct(self) -> None:
        self.assertEqual(layout.natural(read("<{ i32, i32 }>")), ("struct", ("i32", "i32")))

    def test_a_packed_struct_whose_fields_lie_elsewhere_has_no_such_type(self) -> None:
        self.assertIsNone(layout.natural(read("<{ i8, i64 }>")))
        self.assertIsNone(layout.natural(read("[2 x <{ i8, i64 }>]")))
        self.assertIsNone(layout.natural(read("<{ i32, i8 }>")))

    def test_room_has_the_size_and_the_alignment(self) -> None:
        for text, least in [("<{ i8, i64 }>", 1), ("{ i8, i64 }", 1), ("i128", 1), ("[5 x i8]", 8)]:
            with self.subTest(text):
                room = layout.room(read(text), least)
                self.assertGreaterEqual(types.size(room), types.size(read(text)))
                self.assertGreaterEqual(types.alignment(room), min(max(types.alignment(read(text)), least), 8))

    def test_the_parts_of_an_integer_cover_its_bytes_once(self) -> None:
        for width in (8, 24, 40, 56, 72, 104, 128):
            covered = [offset + byte for offset, part in layout.parts(f"i{width}") for byte in range(types.size(part))]
            self.assertEqual(covered, list(range(width // 8)), width)

    def test_an_alignment_is_known_as_far_as_the_offset_keeps_it(self) -> None:
        self.assertEqual([layout.known_alignment(8, offset) for offset in (0, 1, 4, 6, 16)], [8, 1, 4, 2, 8])


if __name__ == "__main__":
    unittest.main()

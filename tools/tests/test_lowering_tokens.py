"""The tokens of LLVM's text form, as tools/lowering takes them."""
from __future__ import annotations

import sys
import unittest
from pathlib import Path

sys.path.insert(0, str(Path(__file__).resolve().parents[1]))

from lowering.names import clean_name  # noqa: E402
from lowering.refusals import Refused  # noqa: E402
from lowering.tokens import Tokens  # noqa: E402


def words(text: str) -> list[str]:
    """The texts of all tokens."""
    return [token for _, token in Tokens(text).tokens]


def kinds(text: str) -> list[str]:
    """The kinds of all tokens."""
    return [kind for kind, _ in Tokens(text).tokens]


class Looked(dict[str, int]):
    """Taken names that count how often one is looked for."""

    count = 0

    def __contains__(self, name: object) -> bool:
        """Whether a name is taken."""
        self.count += 1
        return super().__contains__(name)


class Names(unittest.TestCase):
    """Names in the lowered text."""

    def test_a_name_is_cleaned_and_numbered(self) -> None:
        taken = dict.fromkeys(["main", "a.1"], 1)
        names = [clean_name(name, taken, "v") for name in ('"a b"', "a", "a", "a", "main", "7", "a_b", "a.1")]
        self.assertEqual(names, ["a_b", "a", "a.2", "a.3", "main.1", "v7", "a_b.1", "a.1.1"])

    def test_a_name_that_is_often_wanted_is_found_at_once(self) -> None:
        taken = Looked()
        names = [clean_name("result", taken, "v") for _ in range(3000)]
        self.assertEqual(len(set(names)), 3000)
        self.assertLess(taken.count, 3 * 3000)


class Cutting(unittest.TestCase):
    """Where a token ends, and of which kind it is."""

    def test_an_instruction_is_cut_into_its_tokens(self) -> None:
        text = "store i64 -5, ptr %slot.addr, align 8, !dbg !12 ; a comment\n"
        self.assertEqual(
            words(text), ["store", "i64", "-5", ",", "ptr", "%slot.addr", ",", "align", "8", ",", "!dbg", "!12"]
        )

    def test_each_kind_is_known(self) -> None:
        text = '%a @"b c" $d !e "f" c"g\\00" -7 word #3 ='
        self.assertEqual(
            kinds(text), ["name", "name", "name", "metadata", "string", "bytes", "number", "word", "attributes", "mark"]
        )

    def test_a_name_in_quotes_keeps_spaces_commas_and_semicolons(self) -> None:
        self.assertEqual(words('@"a, b; c" %"d e"'), ['@"a, b; c"', '%"d e"'])

    def test_a_word_that_begins_with_digits_is_no_number(self) -> None:
        self.assertEqual(
            list(zip(kinds("0x1f 3.0x 7x 7"), words("0x1f 3.0x 7x 7"))),
            [("word", "0x1f"), ("word", "3.0x"), ("word", "7x"), ("number", "7")],
        )

    def test_a_floating_point_number_is_in_decimal_or_has_its_bits(self) -> None:
        for text in (
            "3.000000e+00",
            "-1.5",
            "1.000000e-10",
            "0x3FB999999999999A",
            "0xH3C00",
            "0xK3FFF8000000000000000",
        ):
            self.assertEqual((kinds(text), words(text)), (["float"], [text]))

    def test_a_label_is_a_word_and_a_mark(self) -> None:
        self.assertEqual(words("for.body.i: ; preds = %entry"), ["for.body.i", ":"])

    def test_brackets_and_stars_stand_alone(self) -> None:
        self.assertEqual(words("<{ i8, [2 x i32*] }>"), ["<", "{", "i8", ",", "[", "2", "x", "i32", "*", "]", "}", ">"])

    def test_what_is_no_token_is_kept_as_an_odd_letter(self) -> None:
        self.assertEqual(kinds("add & i8"), ["word", "odd", "word"])


class Taking(unittest.TestCase):
    """How tokens are taken, one after another."""

    def test_tokens_come_in_order_and_end_with_an_empty_text(self) -> None:
        tokens = Tokens("ret void")
        self.assertEqual(
            [tokens.take(), tokens.peek(), tokens.peek(1), tokens.take(), tokens.peek(), tokens.kind()],
            ["ret", "void", "", "void", "", "end"],
        )

    def test_another_token_than_the_expected_one_is_refused(self) -> None:
        tokens = Tokens("ret void")
        with self.assertRaisesRegex(Refused, "'br' was expected where 'ret' stands"):
            tokens.take("br")
        self.assertEqual(tokens.peek(), "ret")

    def test_a_text_that_ends_too_early_is_refused(self) -> None:
        with self.assertRaisesRegex(Refused, "the text ends too early"):
            Tokens("").take()

    def test_a_word_is_taken_only_where_it_stands(self) -> None:
        tokens = Tokens("nsw i32")
        self.assertEqual(
            [tokens.take_if("nuw", "nsw"), tokens.take_if("nuw", "nsw"), tokens.peek()], ["nsw", "", "i32"]
        )

    def test_all_words_of_a_set_are_taken_in_their_order(self) -> None:
        tokens = Tokens("dso_local internal constant")
        self.assertEqual(tokens.take_all({"internal", "dso_local"}), ["dso_local", "internal"])
        self.assertEqual(tokens.peek(), "constant")

    def test_nested_parentheses_are_skipped_as_a_whole(self) -> None:
        tokens = Tokens("(a, (b), c) d")
        tokens.skip_parentheses()
        self.assertEqual(tokens.peek(), "d")

    def test_a_parenthesis_that_is_not_closed_is_refused(self) -> None:
        with self.assertRaises(Refused):
            Tokens("(a, (b)").skip_parentheses()


class Attributes(unittest.TestCase):
    """The attributes of a parameter, a result or a call."""

    def skipped(self, text: str) -> tuple[int, str, str]:
        """The alignment that the attributes give, the first token of the type that is passed by value, and the token after them."""
        tokens = Tokens(text)
        alignment, by_value = tokens.skip_attributes()
        return alignment, by_value.peek() if by_value else "", tokens.peek()

    def test_plain_attributes_are_skipped(self) -> None:
        self.assertEqual(self.skipped('noundef nonnull #4 "key"="value" "alone" %p'), (1, "", "%p"))

    def test_an_alignment_is_answered(self) -> None:
        self.assertEqual(self.skipped("align 16 noundef %p"), (16, "", "%p"))
        self.assertEqual(self.skipped("align(4) %p")[2], "%p")

    def test_attributes_with_arguments_are_skipped_with_them(self) -> None:
        self.assertEqual(self.skipped("dereferenceable(8) range(i32 0, 2) captures(none) %p"), (1, "", "%p"))

    def test_a_type_that_is_passed_by_value_is_answered(self) -> None:
        self.assertEqual(self.skipped("byval(%struct.pair) align 8 %p"), (8, "%struct.pair", "%p"))

    def test_another_word_ends_the_attributes(self) -> None:
        self.assertEqual(self.skipped("musttail %p")[2], "musttail")


if __name__ == "__main__":
    unittest.main()

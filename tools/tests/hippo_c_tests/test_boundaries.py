"""Checks at the boundaries of an API: --check-return and --check-call of hippo-c."""
import json

from .common import Case

# A log whose `put` flushes what it stores and leaves the fence to `drain`: at the return of main all is durable.
LOG = """#include <hippo.h>
struct log { long tail, items[8]; };
PERSISTENT struct log the_log;
PERSISTENT long counter;
static void put(long value) {
    the_log.items[the_log.tail % 8] = value;
    _mm_clwb(&the_log.items[the_log.tail % 8]);
    the_log.tail++;
    _mm_clwb(&the_log.tail);
}
static void drain(void) {
    _mm_sfence();
}
int main(void) {
    put(1);
    print_i64(the_log.tail);
    drain();
    counter = 1;
    pmem_persist(&counter, sizeof counter);
    return 0;
}
"""
# `apply` calls what it is given, so the call of `reply` is one by pointer.
BY_POINTER = """#include <hippo.h>
PERSISTENT long word;
static void reply(void) { pmem_drain(); }
static void other(void) { word++; pmem_flush(&word, sizeof word); }
static void apply(void (*what)(void)) { what(); }
int main(void) {
    apply(other);
    apply(reply);
    return 0;
}
"""
# `put` leaves by a jump before it has flushed, and what catches the jump flushes.
JUMP = """#include <hippo.h>
#include <setjmp.h>
#include <stdlib.h>
PERSISTENT _Alignas(64) long value;
static jmp_buf out;
static __attribute__((noinline)) void fill(long n) {
    value = n;
    if (n == 2) longjmp(out, 1);
    if (n == 3) exit(0);
    pmem_persist(&value, sizeof value);
}
static __attribute__((noinline)) void put(long n) {
    fill(n);
    value++;
}
int main(void) {
    if (setjmp(out)) {
        pmem_persist(&value, sizeof value);
        return 0;
    }
    put(read_i64());
    pmem_persist(&value, sizeof value);
    return 0;
}
"""


class Boundaries(Case):
    """What is checked, at which level of clang, and how it is said."""

    def setUp(self) -> None:
        super().setUp()
        self.log = self.write("log.c", LOG)

    def messages(self, *words: str) -> list[str]:
        """The messages of the groups of a check, which must have the exit code of what it found."""
        ran = self.hippo_c("check", *words, "--json", "-", "--no-source")
        answer = json.loads(ran.stdout)
        found = [group["message"] for result in answer["inputs"] for group in result["groups"]]
        self.assertEqual(ran.returncode, 1 if found else 0, ran.stderr)
        return found

    def test_a_later_fence_hides_nothing_at_a_return(self) -> None:
        self.assertEqual(self.messages(self.log), [])
        for level in "0123":
            found = self.messages(self.log, f"-O{level}", "--check-return", "put")
            self.assertEqual(
                [message.split(" [")[0] for message in found],
                [
                    f"store of 8 bytes to '{name}' is not durable when 'put' returns in log.c:10"
                    for name in ("the_log.items[0]", "the_log.tail")
                ],
                level,
            )
            self.assertTrue(all("[missing-fence" in message for message in found))

    def test_a_return_at_which_all_is_durable(self) -> None:
        self.assertEqual(self.messages(self.log, "--check-return", "drain,main"), [])

    def test_calls(self) -> None:
        found = self.messages(self.log, "--check-call", "print_i64")
        self.assertEqual(len(found), 2)
        self.assertIn("is not durable at the call of 'print_i64' in log.c:16 ", found[0])
        self.assertEqual(self.messages(self.log, "--check-call", "put"), [])

    def test_a_call_by_pointer(self) -> None:
        found = self.messages(self.write("pointer.c", BY_POINTER), "--check-call", "reply")
        self.assertEqual(len(found), 1)
        self.assertIn("is not durable at the call of 'reply'", found[0])
        self.assertEqual(self.messages("pointer.c", "--check-return", "reply"), [])

    def test_a_jump_and_an_exit_are_no_return(self) -> None:
        """Only a return of `put` is a check: not a jump through it, nor an exit in it."""
        self.write("jump.c", JUMP)
        every: tuple[tuple[int, list[str]], ...] = (
            (1, ["when 'put' returns"]),
            (2, []),
            (3, ["at the end of the run"]),
        )
        for number, places in every:
            found = self.messages("jump.c", "--no-coverage", "--check-return", "put", "--input", str(number))
            self.assertEqual(len(found), len(places), found)
            for message, place in zip(found, places):
                self.assertIn(place, message)

    def test_one_global(self) -> None:
        self.assertEqual(len(self.messages(self.log, "--check-return", "put=the_log")), 2)
        self.assertEqual(self.messages(self.log, "--check-return", "put=counter"), [])

    def test_expressions_files_and_several_words(self) -> None:
        self.write("more.c", "void put_more(void) {}\n")
        self.assertEqual(len(self.messages(self.log, "--check-return", "pu.")), 2)
        self.assertEqual(len(self.messages(self.log, "--check-return", "log.c:p.*")), 2)
        self.assertEqual(len(self.messages("./log.c", "--check-return", "drain", "--check-return", "log.c:put")), 2)

    def test_a_boundary_that_the_run_never_meets(self) -> None:
        self.write("never.c", LOG.replace("    drain();\n", "    if (read_i64()) drain();\n    _mm_sfence();\n"))
        ran = self.hippo_c("check", "never.c", "--input", "0", "--check-return", "drain", code=0)
        self.assertIn("warning: no check when 'drain' returns ran in this run", ran.stdout)
        ran = self.hippo_c("check", "never.c", "--input", "1", "--check-return", "drain", code=0)
        self.assertNotIn("ran in this run", ran.stdout)

    def test_without_an_assert_the_option_is_named(self) -> None:
        self.assertIn("--check-return FUNCTION", self.hippo_c("check", self.log, code=0).stdout)

    def test_suggestions_make_it_clean(self) -> None:
        ran = self.hippo_c("check", self.log, "--check-return", "put", "--verify-fix", code=1)
        self.assertIn("with the suggestions applied: 0 reports", ran.stdout)

    def test_refusals(self) -> None:
        for words, reason in (
            (
                ["--check-return", "putt"],
                "--check-return 'putt': no function in the program fits\nhippo-c: hint: is put meant?",
            ),
            (["--check-return", "a.c:put"], "hint: a.c is the end of no path of a file"),
            (["--check-return", "(put"], "--check-return '(put': not a regular expression: "),
            (["--check-return", "put="], "--check-return 'put=': not of the form [FILE:]FUNCTION[=GLOBAL]"),
            (["--check-return", ""], "--check-return '': not of the form"),
            (
                ["--check-return", "put=log"],
                "no persistent global has the name log\nhippo-c: hint: there are counter, the_log",
            ),
            (["--check-call", "main"], "--check-call 'main': no call in the program fits"),
        ):
            self.refused(reason, "check", self.log, *words)
        self.write("none.c", "static long word;\nint main(void) { return (int)word; }\n")
        self.refused("--check-return 'main': no global is persistent", "check", "none.c", "--check-return", "main")


class Others(Case):
    """The other commands with boundaries."""

    def setUp(self) -> None:
        super().setUp()
        self.log = self.write("log.c", LOG)

    def test_repair_has_the_fences_and_not_the_checks(self) -> None:
        ran = self.hippo_c("repair", self.log, "-o", "out.ll", "--check-return", "put", code=0)
        self.assertIn("added: 0 flushes, 2 fences", ran.stdout)
        text = self.read("out.ll")
        self.assertNotIn("pm_assert", text)
        self.assertEqual(self.hippo("run", "out.ll").stdout, "1\n")
        plain = self.hippo_c("repair", self.log, "-o", "plain.ll", code=0)
        self.assertIn("added: 0 flushes, 0 fences", plain.stdout)
        self.assertEqual(text.count("sfence()"), self.read("plain.ll").count("sfence()") + 2)

    def test_a_repaired_object_needs_no_assert(self) -> None:
        self.write("main.c", "void run(void);\nint main(void) { run(); return 0; }\n")
        self.write("part.c", LOG.replace("int main(void)", "void run(void)").replace("    return 0;\n", ""))
        self.hippo_c("repair", "main.c", "part.c", "-o", "part.o", "--for", "part.c", "--check-return", "put", code=0)
        self.assertNotIn("pm_assert", self.command("nm", "part.o").stdout)

    def test_asserts_of_the_user_stay_in_a_repair(self) -> None:
        self.write("own.c", LOG.replace("    drain();\n", "    drain();\n    pm_assert(&the_log, sizeof the_log);\n"))
        self.hippo_c("repair", "own.c", "-o", "own.ll", "--check-return", "put", code=0)
        self.assertEqual(self.read("own.ll").count("call void @pm_assert("), 1)

    def test_explore_finds_at_a_return_and_says_how_to_see_it(self) -> None:
        ran = self.hippo_c("explore", self.log, "--check-return", "put", "--time", "5", code=1)
        self.assertIn("when 'put' returns", ran.stdout)
        self.assertIn("see it again: hippo-c check log.c --check-return=put", ran.stdout)
        again = self.hippo_c("check", "log.c", "--check-return=put", code=1)
        self.assertIn("when 'put' returns", again.stdout)

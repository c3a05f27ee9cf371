"""What the engine of explore says is judged by hippo: another trace, another ending and outputs that are right are not shown."""
import os
import re
import unittest
import unittest.mock

from .common import Case
from .explore_case import BUGS, numbers_of
from .test_native import NativeCase

from hippo_c import confirming, exploring, running
from hippo_c.engine_lines import Reader
from hippo_c.judging import Judge
from hippo_c.native import Engine
from hippo_c.progress import Progress
from hippo_c.request import Request
from hippo_c.session import Session
from hippo_c.trouble import Trouble

# A store between a flush of its line and the fence: only the store before the flush is durable.
BETWEEN = """@line = global [8 x i64] zeroinitializer, section ".pm", align 64
declare void @llvm.x86.clwb(ptr)
declare void @llvm.x86.sse.sfence()
declare void @pm_assert(ptr, i64)
define i32 @main() {
entry:
  store i64 1, ptr @line
  call void @llvm.x86.clwb(ptr @line)
  store i64 2, ptr getelementptr (i8, ptr @line, i64 8)
  call void @llvm.x86.sse.sfence()
  call void @pm_assert(ptr @line, i64 64)
  ret i32 0
}
"""
# The recovery fails where `done` is durable and `b` is not: a power cut leaves that only if `b` is stored after the flush of its line.
DONE = """#include <hippo.h>
PERSISTENT struct { _Alignas(64) long a; long b; _Alignas(64) long done; } s;
int main(void) {
  if (s.done && !s.b) __builtin_trap();
  s.a = 1;
  if (!LATE) s.b = 2;
  _mm_clwb(&s.a);
  if (LATE) s.b = 2;
  _mm_sfence();
  s.done = 1;
  pmem_persist(&s.done, sizeof s.done);
  return 0;
}
"""


class Reports(NativeCase):
    """The engine's own reports and images."""

    def test_a_store_between_a_flush_and_a_fence(self) -> None:
        engine = self.engine(BETWEEN)
        self.assertEqual(self.compare(engine, []), "stop 0")
        self.assertEqual([line.split(" ")[:4] for line in engine.check([])], [["report", "flush", "entry", "5"]] * 2)

    def test_images_after_a_fence(self) -> None:
        self.write("a.c", DONE)
        for late in (0, 1):
            folder = self.path(str(late))
            os.mkdir(folder)
            engine = Engine(self.program(self.path("a.c"), "--", f"-DLATE={late}"), folder)
            lines = self.command(*engine.words("replay", [], "--runs", "10000", "--crashes", "1")).stdout.splitlines()
            self.assertEqual(any(line.startswith("failure ") for line in lines), bool(late))
            self.assertIn(" left=0", lines[-1])


class Judged(Case):
    """The engine of a program with a bug, after a change of what it says."""

    def session(self, name: str) -> Session:
        """The session of a program with its bug."""
        request = Request([f"{BUGS}/{name}.c"], ["-DBUG=1", "-DVALID"], inputs=[numbers_of(name)], folder=self.folder)
        session = Session(request, Progress(shown=False))
        return session

    def test_an_engine_with_another_trace_is_refused(self) -> None:
        session, numbers = self.session("seals"), numbers_of("seals")
        engine = Engine(session.program, self.folder)
        exploring.check_engine(session, engine, numbers)
        record = engine.record

        def changed(change: tuple[bytes, bytes], numbers: list[int], path: str, *options: str) -> running.Ended:
            """A trace with one change, of the same length."""
            ended = record(numbers, path, *options)
            with open(path, "r+b") as file:
                text = file.read()
                self.assertIn(change[0], text)
                file.seek(0)
                file.write(text.replace(*change, 1))
            return ended

        for change in ((b"STORE", b"FLUSH"), (b"FENCE\n", b"FENCE "), (b"STOP;0", b"STOP;1")):
            with unittest.mock.patch.object(engine, "record", lambda *words, change=change: changed(change, *words)):
                with self.assertRaisesRegex(Trouble, "the trace of the engine is not that of hippo"):
                    exploring.check_engine(session, engine, numbers)

    def test_an_engine_with_another_ending_is_refused(self) -> None:
        session, numbers = self.session("seals"), numbers_of("seals")
        engine = Engine(session.program, self.folder)
        record = engine.record
        with unittest.mock.patch.object(
            engine, "record", lambda *words: running.Ended(record(*words).code, "trap address\n")
        ):
            with self.assertRaisesRegex(Trouble, "the trace of the engine is not that of hippo"):
                exploring.check_engine(session, engine, numbers)

    def confirmed(self, line: str, session: Session, engine: Engine) -> confirming.Confirmed:
        """What hippo confirms of a line of the engine."""
        reader = Reader(engine.sites)
        reader.take(line)
        return confirming.Confirming(session).confirm(reader.found, [])

    def test_no_word_of_a_failure_is_believed(self) -> None:
        session = self.session("seals")
        engine = Engine(session.program, self.folder)
        said = self.command(*engine.words("replay", numbers_of("seals"), "--runs", "20000", "--crashes", "1")).stdout
        line = next(line for line in said.splitlines() if line.startswith("failure "))
        self.assertEqual(len(self.confirmed(line, session, engine).failures), 1)
        nothing = ((r"cuts=\S+", "cuts=0"), (r"lost=\S*", "lost="), (r" at=\S*", " at="))
        for changes in (
            ((r"level=1", "level=2"),),
            ((r" site=\d+", " site=0"),),
            ((r" at=\d+", " at=0"),),
            ((r"lost=\d+:", "lost=4294967296:"),),
            ((r"lost=\S+", "lost="),),
            ((r"told=0", "told=1"),),
            ((r"input=\S*", "input=0"),),
            ((r"cuts=(\d+)\S*", r"cuts=\1"), (r" at=\d+", " at=0")),
            ((r"ending=\w+ status=\d+", "ending=stop status=0"), *nothing),
            ((r"ending=\w+", "ending=cut"), (r"limit=\d+", "limit=20"), *nothing),
        ):
            changed = line
            for old, new in changes:
                changed = re.sub(old, new, changed)
            self.assertNotEqual(changed, line)
            found = self.confirmed(changed, session, engine)
            self.assertEqual((found.failures, found.refused), ([], 1), changes)

    def test_no_word_of_an_operation_is_believed(self) -> None:
        session = self.session("stale_pointer")
        engine = Engine(session.program, self.folder)
        ran = self.command(*engine.words("replay", numbers_of("stale_pointer"), "--runs", "30000", "--atomic", "1"))
        line = next(line for line in ran.stdout.splitlines() if line.startswith("outputs acknowledged=0"))
        self.assertEqual(len(self.confirmed(line, session, engine).outputs), 1)
        for change in (
            (r"skips=\d+", "skips=99"),
            (r"skips=(\d+),\d+", r"skips=\1,99"),
            (r"skips=(\d+,\d+),\d+", r"skips=\1,99"),
            (r"cuts=\d+", "cuts=9999"),
            (r"cuts=\S+", "cuts=0"),
            (r"resumed=\S+", "resumed="),
            (r"resumed=", "resumed=77,"),
            (r"without=", "without=77,"),
            (r" at=\d+", " at=0"),
            (r"told=0", "told=1"),
            (r"acknowledged=0 print=0", "acknowledged=1 print=99"),
        ):
            changed = re.sub(*change, line)
            self.assertNotEqual(changed, line, change)
            found = self.confirmed(changed, session, engine)
            self.assertEqual((found.outputs, found.refused), ([], 1), change)
        with unittest.mock.patch.object(Judge, "has_operation", return_value=True):
            found = self.confirmed(re.sub(r"skips=\S+", "skips=99,99,99", line), session, engine)
        self.assertEqual((found.outputs, found.refused), ([], 1))


if __name__ == "__main__":
    unittest.main()

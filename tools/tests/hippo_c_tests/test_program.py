"""The reading of texts, reports and repairs."""
from .common import TOOLS, Case

from hippo_c.names import Names
from hippo_c.plan import Repair
from hippo_c.program import Program, parse_site, show_site
from hippo_c.reports import grouped
from hippo_c.traces import read_trace

TEXT = """@a = global i8 1, section ".pm"
@v = global { i8, i64 } zeroinitializer
@b = global [3 x { i8, i64 }] [{ i8, i64 } { i8 1, i64 2 }, { i8, i64 } zeroinitializer, { i8, i64 } zeroinitializer], section ".pm"
@c = global i16 0, section ".pm", align 128
declare void @llvm.x86.sse.sfence()
declare void @llvm.x86.clwb(ptr)
define void @put(ptr %p) {
entry:
  store i64 1, ptr %p
  ret void
}
define i32 @main() {
entry:
  call void @put(ptr @c)
  call void @put(ptr @v)
  br label %next
next:
  %n = phi i64 [ 0, %entry ]
  store i16 3, ptr @c
  store i8 1, ptr @a
  call void @llvm.x86.sse.sfence()
  ret i32 0
}
""".replace(
    "call void @put(ptr @c)", "call void @put(ptr getelementptr (i8, ptr @b, i64 8))"
).replace(
    "call void @put(ptr @v)", "call void @put(ptr getelementptr (i8, ptr @v, i64 8))"
)


class Texts(Case):
    """Texts, with hippo's own answers as the measure."""

    def setUp(self) -> None:
        """Records a run of the text."""
        super().setUp()
        self.write("a.ll", TEXT)
        self.write("a.trace", self.hippo("record", "a.ll").stdout)
        self.found = Program(TEXT)

    def test_addresses_are_those_of_the_trace(self) -> None:
        stores = [int(line.split(";")[1], 16) for line in self.read("a.trace").split("\n") if line.startswith("STORE")]
        objects = [found for address in stores if (found := self.found.object_at(address))]
        names = [(item.name, offset) for item, offset in objects]
        self.assertEqual(names, [("b", 8), ("c", 0), ("a", 0)])
        self.assertEqual(f"{self.found.region_size():#x}", self.read("a.trace").split("\n")[1].split(";")[2])
        self.assertIsNone(self.found.object_at(stores[2] + 1))

    def test_sites(self) -> None:
        site = ("main", "next", 0)
        self.assertEqual(parse_site(show_site(site)), site)
        self.assertEqual(self.found.at(site).text, "store i16 3, ptr @c")
        self.assertIsNone(self.found.instruction(("main", "next", 9)))

    def test_groups_come_by_their_first_entry(self) -> None:
        reports = [
            "report both entry 9 check 20 closed 0 path @put:entry:0 @main:entry:0",
            "report fence entry 4 check 20 closed 1 flush @main:entry:1 path @main:next:0",
            "report both entry 7 check 21 closed 1 path @put:entry:0 @main:entry:0",
            "report flush entry 9 check 22 closed 0 path @put:entry:0 @main:entry:0",
        ]
        groups = grouped(reports)
        self.assertEqual(
            [(group.kind, group.count, group.entry, group.check) for group in groups],
            [("fence", 1, 4, 20), ("both", 2, 7, 21), ("flush", 1, 9, 22)],
        )
        self.assertEqual(groups[0].flush, ("main", "entry", 1))

    def test_counts_of_a_trace(self) -> None:
        trace = read_trace(self.path("a.trace"), self.found, {4})
        self.assertEqual((trace.stores, trace.asserts, trace.fences, trace.end), (3, 0, 1, "STOP;0"))
        self.assertEqual(trace.stored, {"a", "b", "c"})
        self.assertEqual(trace.entries, len(self.read("a.trace").strip().split("\n")))

    def test_a_repair_is_read_back(self) -> None:
        repaired = Program(self.hippo("repair", "a.ll", "a.trace").stdout)
        repair = Repair(self.found, repaired)
        self.assertEqual(set(repair.clones.values()) | set(self.found.functions), set(self.found.functions))
        for site, instruction in repaired.sites():
            original = self.found.instruction(repair.site_of(site))
            added = [item.instruction for item in repair.insertions if item.instruction is instruction]
            if not added and instruction.callee not in repair.clones:
                self.assertEqual(instruction.text, original.text if original else None)

    def test_a_fence_before_a_fence_belongs_to_its_call(self) -> None:
        repaired = Program(
            TEXT.replace(
                "  store i8 1, ptr @a\n",
                "  store i8 1, ptr @a\n  call void @llvm.x86.clwb(ptr @a)\n" "  call void @llvm.x86.sse.sfence()\n",
            )
        )
        repair = Repair(self.found, repaired)
        self.assertEqual([item.site for item in repair.insertions], [("main", "next", 1)] * 2)

    def test_clones_lead_to_their_originals(self) -> None:
        text = TEXT.replace(
            "call void @put(ptr getelementptr (i8, ptr @b", "call void @put.pm(ptr getelementptr (i8, ptr @b"
        )
        text += "define void @put.pm(ptr %p) {\nentry:\n  store i64 1, ptr %p\n  call void @llvm.x86.clwb(ptr %p)\n  ret void\n}\n"
        repair = Repair(self.found, Program(text))
        self.assertEqual(repair.clones, {"put.pm": "put"})
        self.assertEqual(list(repair.hoists), [("main", "entry", 0)])
        self.assertEqual(repair.site_of(("put.pm", "entry", 2)), ("put", "entry", 1))
        self.assertEqual([(item.site, item.clone) for item in repair.insertions], [(("put", "entry", 0), "put.pm")])


class Objects(Case):
    """The names of objects by clang's debug information."""

    def test_fields_elements_and_unions(self) -> None:
        self.write(
            "a.c",
            "#include <hippo.h>\n#include <stdint.h>\ntypedef struct { char tag; union { long whole; int half[2]; } u;"
            " uint16_t grid[2][3]; } cell;\nPERSISTENT static volatile cell cells[4];\nPERSISTENT long plain;\n"
            "int main(void) { cells[0].tag = 1; plain = 1; return 0; }\n",
        )
        program = self.program("a.c")
        names = Names(program, [self.path("a.c")], lambda _: [], TOOLS)
        base = next(item.address for item in program.persistent if item.name == "cells")
        self.assertEqual(names.of(base), "cells[0].tag")
        self.assertEqual(names.of(base + 2 * 32 + 8), "cells[2].u.whole")
        self.assertEqual(names.of(base + 32 + 16 + 4 * 2), "cells[1].grid[1][1]")
        self.assertEqual(names.of(next(item.address for item in program.persistent if item.name == "plain")), "plain")
        self.assertEqual(names.of(1), "0x1")

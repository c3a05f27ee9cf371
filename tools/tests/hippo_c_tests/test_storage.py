"""Three programs as authors of storage write them, with bugs, and small ones for single points. A store that a bug leaves behind has the
comment `lost by B1`. Each bug is found, and nothing else is reported."""
import os
import re
import shutil

from .common import Case

STORAGE = os.path.join(os.path.dirname(os.path.abspath(__file__)), "storage")
TABLE = ("hash_table.c", "hash_table_driver.c", "--ignore-output")
# What makes the log right: each bug with its cure. An update that does not fit must also leave nothing in the shadow.
LOG_CURES = (
    ("flush(wal.buf + at, sizeof h);", "flush(wal.buf + at, sizeof h + len);"),
    ("flush(&wal.tail, sizeof wal.tail);", "PERSIST(&wal.tail, sizeof wal.tail);"),
    ("flush(page[p], PAGE / 2);", "flush(page[p], PAGE);"),
    ("memset(wal.buf, 0, LOG_BYTES);", "memset(wal.buf, 0, LOG_BYTES); flush(wal.buf, LOG_BYTES);"),
    ("if (!append(p, shadow[p], PAGE))\n", "if (!append(p, shadow[p], PAGE) && give_up())\n"),
    (
        "static int update_pair(",
        "static int give_up(void) { memcpy(shadow, page, sizeof shadow); PERSIST(&wal, 24); return 1; }\n\nstatic int update_pair(",
    ),
)


class Storage(Case):
    """Bugs of the hash table (A), the log (B), the allocator (C), and of single programs."""

    def take_storage(self, *names: str) -> None:
        """Copies programs."""
        for name in names:
            shutil.copy(os.path.join(STORAGE, name), self.folder)

    def lost_by(self, name: str) -> dict[int, str]:
        """The bugs of a program by the lines of the stores that they leave behind."""
        lines = enumerate(self.read(name).split("\n"), 1)
        return {line: found[1] for line, text in lines if (found := re.search(r"lost by (\w+)", text))}

    def found_in(self, name: str, *words: str) -> set[str]:
        """The bugs that a check reports; each report has to be of a store that a bug leaves behind."""
        ran = self.hippo_c("check", *words, "--no-source", code=1)
        reported = {
            (one[0], int(one[1])) for one in re.findall(r"(?m)^([\w.]+):(\d+):\d+: warning: store of", ran.stdout)
        }
        lost = self.lost_by(name)
        self.assertEqual(reported - {(name, line) for line in lost}, set(), ran.stdout)
        return {lost[line] for _, line in reported}

    def line_of(self, name: str, part: str) -> int:
        """The number of the line of a program that has a text."""
        return next(line for line, text in enumerate(self.read(name).split("\n"), 1) if part in text)

    def changed(self, name: str, *pairs: tuple[str, str]) -> None:
        """Changes a program."""
        text = self.read(name)
        for old, new in pairs:
            self.assertEqual(text.count(old), 1, old)
            text = text.replace(old, new)
        self.write(name, text)

    def test_hash_table(self) -> None:
        """At the returns of its functions, before its commit point, and the statistics that the source declares volatile."""
        self.take_storage("hash_table.c", "hash_table.h", "hash_table_driver.c")
        found = self.found_in("hash_table.c", *TABLE, "--check-return", "ph_put,ph_del,ph_open")
        self.assertEqual(found, {"A1", "A2", "A5", "A6"})
        switch = self.line_of("hash_table.c", "pool.active = 1 -")
        found = self.found_in("hash_table.c", *TABLE, "--commit", f"hash_table.c:{switch}")
        self.assertTrue({"A2", "A3", "A4"} <= found, found)

    def test_short_flush_is_named(self) -> None:
        """A flush of the size of a pointer says how much of the object it covers."""
        self.take_storage("hash_table.c", "hash_table.h", "hash_table_driver.c")
        ran = self.hippo_c("check", *TABLE, code=1)
        line = self.line_of("hash_table.c", "// bug A1")
        self.assertIn(
            f"hash_table.c:{line}:2: note: the flush here covers 8 of the 24 bytes of 'pool.t[0].e[3]'\n", ran.stdout
        )
        self.assertIn("1 group suppressed in the source", ran.stdout)

    def test_recovery_of_the_hash_table(self) -> None:
        """A recovery that does not count again fails after a power cut, and so do entries that the switch made live too early."""
        self.take_storage("hash_table.c", "hash_table.h", "hash_table_driver.c")
        ran = self.hippo_c("crash", *TABLE, "--runs", "20000", code=1)
        trap = self.line_of("hash_table.c", "// bug A7")
        self.assertIn(f"hash_table.c:{trap}:3: note: the run from that image ends here", ran.stdout)
        self.assertRegex(ran.stdout, r"note: this store to 'pool\.t\[1\]\.e\[\d+\]\.\w+' is lost")

    def test_log(self) -> None:
        """At the returns of its functions."""
        self.take_storage("log.c")
        words = ("--check-return", "update_pair,checkpoint,truncate_log,recover", "--input", "40")
        self.assertEqual(self.found_in("log.c", "log.c", *words), {"B1", "B2", "B3", "B4", "B6", "B7"})
        self.changed("log.c", *LOG_CURES)
        self.hippo_c("check", "log.c", *words, code=0)

    def test_recovery_of_the_log(self) -> None:
        """A full log leaves half of an update in the shadow; with its cure nothing fails. Then each bug of the recovery is found: no test
        of the checksum, a replay of what is not committed, and a head that moves before the pages are durable, which only
        `hippo_prints` shows."""
        self.take_storage("log.c")
        self.changed("log.c", *LOG_CURES)
        words = ("crash", "log.c", "--input", "9", "--runs", "6000")
        self.assertIn("; 0 fail, by 0 causes", self.hippo_c(*words, code=0).stdout)
        right = self.read("log.c")
        for old, new in (
            ("	if (c != h.crc)\n		return -1;\n", ""),
            ("		if (r == 1)\n			end = at;\n", "		end = at;\n"),
            ("	FENCE();\n	wal.head = wal.tail;\n", "	wal.head = wal.tail;\n"),
        ):
            self.write("log.c", right)
            self.changed("log.c", (old, new))
            with self.subTest(old):
                self.assertRegex(self.hippo_c(*words, code=1).stdout, r"the next run fails")

    def test_allocator(self) -> None:
        """At the returns of its functions, and at that of the inner one that does not fence."""
        self.take_storage("buddy.c")
        words = ("buddy.c", "--ignore-output", "--check-return")
        self.assertEqual(self.found_in("buddy.c", *words, "bfree,salloc,sfree"), {"C1", "C2", "C4"})
        ran = self.hippo_c("check", *words, "unlink_", code=1)
        line = next(line for line, bug in self.lost_by("buddy.c").items() if bug == "C3")
        self.assertRegex(ran.stdout, rf"(?m)^buddy.c:{line}:\d+: warning: .* when 'unlink_' returns .*missing-fence")

    def test_acknowledgement(self) -> None:
        """What is printed before it is durable: no report at the end, one before the call, and an error after a power cut."""
        self.take_storage("acknowledged.c")
        self.hippo_c("check", "acknowledged.c", code=0)
        ran = self.hippo_c("check", "acknowledged.c", "--check-call", "print_i64", code=1)
        self.assertIn("'n' is not durable at the call of 'print_i64'", ran.stdout)
        ran = self.hippo_c("crash", "acknowledged.c", "--runs", "2000", code=1)
        self.assertRegex(ran.stdout, r"see it again: hippo-c crash acknowledged\.c --entries \d+ --pick.* --prints \d+")
        self.assertRegex(ran.stdout, r"an acknowledged operation is lost: print 1 \(acknowledged\.c:\d+\)")

    def test_redo_twice(self) -> None:
        """A power cut in the recovery shows a redo that must not run twice."""
        self.take_storage("redo.c", "redo_word.c")
        for name in ("redo.c", "redo_word.c"):
            ran = self.hippo_c("crash", name, "--runs", "2000", code=1)
            self.assertIn("after a power cut, and another one in the recovery here, the next run fails", ran.stdout)
            self.assertIn(" --then ", ran.stdout)

    def test_order(self) -> None:
        """A store in another line that is flushed after the commit point."""
        self.take_storage("order.c")
        found = self.hippo_c("check", "order.c", "--input", "0", "--commit", "valid", code=1).stdout
        (line,) = self.lost_by("order.c")
        self.assertRegex(found, rf"(?m)^order.c:{line}:\d+: warning: .* is not durable before the commit point 'valid'")

    def test_suggestions_in_ordinary_c(self) -> None:
        """Macros in arguments and conditions are copied as text; each suggestion by hand says why."""
        self.take_storage("macros.c", "statements.c")
        ran = self.hippo_c("check", "macros.c", "--verify-fix", code=1)
        self.assertNotIn("by hand", ran.stdout)
        self.assertIn("with the suggestions applied: 0 reports\n", ran.stdout)
        ran = self.hippo_c("check", "statements.c", "--fix", code=1)
        self.assertEqual(
            re.findall(r"suggestion \(by hand: (.*?)\):", ran.stdout),
            ["its address has an effect", "clang says: address of bit-field requested"],
        )

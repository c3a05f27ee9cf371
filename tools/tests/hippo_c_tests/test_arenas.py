"""The names of objects that lie in arrays of bytes: by the types of the pointers through which a program stores."""
from .common import Case

HEAD = """#include <hippo.h>
#define TAKE(type) ((type *)taken(sizeof(type)))
PERSISTENT static ALIGNED(64) unsigned char memory[1024];
static unsigned long used;
static void *taken(unsigned long size) { return memory + (used += (size + 63) / 64 * 64) - 64; }
struct Record { long key; long *ptr; };
"""
TYPES = """struct ALIGNED(64) Page { long count; struct Record records[3]; };
struct List { long count; struct Record records[3]; };
struct Counts { long numbers[4]; };
union Either { long number; char text[8]; };
struct Outer { struct List list; union Either either; };
static long given;
"""
MAIN = """int main(void) {
  struct Page *page = TAKE(struct Page);
  struct List *list = TAKE(struct List);
  struct Counts *counts = TAKE(struct Counts);
  struct Outer *outer = TAKE(struct Outer);
  long *numbers = TAKE(long), at = read_i64();
  page->count = at;
  page->records[at].ptr = &given;
  list->records[at].ptr = &given;
  counts->numbers[at] = at;
  outer->list.count = at;
  outer->either.number = at;
  (&list[at - 2].records[1])->key = at;
  numbers[at] = at;
  memory[900] = 1;
  return 0;
}
"""
# For each store in main the line after the first of main, and the object.
STORED = (
    (7, "'count' of a Page at memory"),
    (8, "'records[2].ptr' of a Page at memory"),
    (9, "'ptr' of a Record at memory+104"),
    (10, "'numbers[..]' of a Counts around memory+144"),
    (11, "'list.count' of an Outer at memory+192"),
    (12, "'either.number' of an Outer at memory+192"),
    (13, "'records[1].key' of a List at memory+64"),
    (14, "'memory[272]'"),
    (15, "'memory[900]'"),
)
CPP = """#include <hippo.h>
#include <new>
PERSISTENT alignas(64) constinit static unsigned char memory[1024] = {};
static unsigned long used;
namespace store {
struct Base {
  long number = 0;
  static void *operator new(std::size_t size) { return memory + (used += (size + 63) / 64 * 64) - 64; }
};
template <class Key> struct alignas(64) Page : Base {
  struct Entry {
    Key key;
    Page *next;
  };
  Entry entries[3] = {};
  void put(int at, Key key) {
    number = key;
    entries[at].key = key;
  }
};
struct Arena {
  unsigned char bytes[64];
  void set(int at) { bytes[at] = 7; }
};
}
PERSISTENT static store::Arena arena;
int main() {
  auto *page = new store::Page<long>;
  pmem_persist(page, sizeof *page);
  page->put(1, read_i64());
  page->entries[2].next = page;
  arena.set(3);
  return 0;
}
"""


class Arenas(Case):
    """One program of C and one of C++."""

    def test_structures_of_c(self) -> None:
        """Each store has the object that its pointer shows, as far as it is certain where that begins."""
        head = HEAD.replace("ALIGNED(64) unsigned", "_Alignas(64) unsigned")
        types = TYPES.replace("ALIGNED(64)", "__attribute__((aligned(64)))")
        self.write("a.c", head + types + MAIN)
        ran = self.hippo_c("check", "--no-source", "a.c", "--input", "2", code=1)
        first = (head + types).count("\n") + 1
        for line, name in STORED:
            self.assertRegex(ran.stdout, rf"(?m)^a\.c:{first + line - 1}:\d+: warning: store of \d bytes? to ")
            self.assertIn(f" to {name} is not durable", ran.stdout)

    def test_classes_of_cpp(self) -> None:
        """Methods store through `this`, also to what a base has; the name is that of the source."""
        self.write("a.cpp", CPP)
        ran = self.hippo_c(
            "check", "--no-source", "a.cpp", "--json", "a.json", "--input", "5", "--", "-std=c++20", code=1
        )
        for line, name in (
            (17, "'number' of a store::Page<long> at memory"),
            (18, "'entries[1].key' of a store::Page<long> at memory"),
            (31, "'entries[2].next' of a store::Page<long> at memory"),
            (23, "'arena.bytes[3]'"),
        ):
            self.assertRegex(ran.stdout, rf"(?m)^a\.cpp:{line}:\d+: warning: store of \d bytes? to ")
            self.assertIn(f" to {name} is not durable", ran.stdout)
        self.assertIn('"entries[2].next of a store::Page<long> at memory"', self.read("a.json"))

"""Suggestions for objects of C++: where they are made, returned, copied, stored to by their functions, in lambdas and in the library."""
from .common import Case

OBJECTS = """#include <atomic>
#include <hippo.h>
#include <new>
PERSISTENT static unsigned char memory[1024];
static unsigned long used;
struct Node {
  long key;
  Node *next = nullptr;
  long cells[4] = {};
  explicit Node(long given) : key(given) {}
  static void *operator new(std::size_t size) { return memory + (used += (size + 63) / 64 * 64) - 64; }
};
struct Pair {
  long one, two, three;
};
PERSISTENT static Pair pair;
PERSISTENT alignas(64) static std::atomic<long> count;
PERSISTENT alignas(64) static long number;
template <class T> struct Table {
  T *first = nullptr;
  void put(T *item) {
    item->next = first;
    first = item;
  }
};
PERSISTENT alignas(64) static Table<Node> table;
static Node *made_node(long key) {
  return new Node(key);
}
int main() {
  auto put = [](long given) {
    number = given;
  };
  put(3);
  table.put(made_node(5));
  Pair other{1, 2, read_i64()};
  pair = other;
  count.store(read_i64(), std::memory_order_release);
  if (long given = read_i64(); given > 2)
    number += given;
  print_i64(table.first->key + number + count + pair.three);
  return 0;
}
"""

LIBRARY = """#include <hippo.h>
#include <new>
#include <vector>
PERSISTENT static unsigned char memory[256];
template <class T> struct Allocator {
  using value_type = T;
  Allocator() = default;
  template <class Other> Allocator(const Allocator<Other> &) {}
  T *allocate(std::size_t) { return reinterpret_cast<T *>(memory); }
  void deallocate(T *, std::size_t) {}
};
int main() {
  std::vector<long, Allocator<long>> numbers;
  numbers.push_back(read_i64());
  print_i64(numbers[0]);
  return 0;
}
"""


class Objects(Case):
    """Programs with stores that nothing flushes."""

    def test_suggestions_for_objects(self) -> None:
        """Each store has an edit, and with all of them there is no report."""
        self.write("objects.cpp", OBJECTS)
        ran = self.hippo_c(
            "check",
            "--single-thread",
            "--no-source",
            "--verify-fix",
            "objects.cpp",
            "--input",
            "4",
            "5",
            "6",
            "--",
            "-std=c++20",
            code=1,
        )
        for text in (
            "write 'auto *made = new Node(key); pmem_flush(made, sizeof *made);",
            "'_mm_clwb(&number);",
            "'_mm_clwb(&count);",
            "'pmem_flush(&pair, sizeof(pair));",
            "'_mm_clwb(&item->next);",
            "'_mm_clwb(&first);",
        ):
            self.assertIn(text, ran.stdout)
        self.assertIn("with the suggestions applied: 0 reports", ran.stdout)
        self.assertNotIn("by hand", ran.stdout)

    def test_a_store_inside_the_library(self) -> None:
        """It is reported at the user's statement; only the repaired program can have its flush."""
        self.write("library.cpp", LIBRARY)
        ran = self.hippo_c("check", "--no-source", "--fix", "library.cpp", "--input", "4", "--", "-std=c++20", code=1)
        self.assertIn(
            "library.cpp:14:11: warning: store of 8 bytes to 'memory[0]' by 'std::vector<..>::push_back'", ran.stdout
        )
        self.assertIn("the program that hippo-c repair writes has the flush", ran.stdout)
        self.assertIn(
            "added: ",
            self.hippo_c(
                "repair", "library.cpp", "-o", "library.ll", "--input", "4", "--", "-std=c++20", code=0
            ).stdout,
        )

// Atomic numbers, pointers, flags and 16 bytes, and the older functions of the compiler.
// options: --single-thread
// clang: -w -std=c++20 -mcx16
#include <atomic>
#include <hippo.h>

struct Node {
  long value;
  Node *next;
};
static std::atomic<Node *> top{nullptr};

static void push(Node *node) {
  node->next = top.load(std::memory_order_relaxed);
  while (!top.compare_exchange_weak(node->next, node, std::memory_order_release, std::memory_order_relaxed)) {}
}

struct alignas(16) Tagged {
  Node *pointer;
  unsigned long tag;
};

int main() {
  std::atomic<long> number{5};
  print_i64(number.fetch_add(3) * 100 + number.fetch_sub(1));
  print_i64(number++ + ++number);
  print_i64((number |= 64) ^ number.fetch_and(~1L) ^ number.exchange(12));
  long expected = 12;
  print_i64(number.compare_exchange_strong(expected, 20) * 10 + (expected == 12));
  expected = 1;
  print_i64(number.compare_exchange_strong(expected, 30) * 10 + expected);
  std::atomic_flag flag = ATOMIC_FLAG_INIT;
  print_i64(flag.test_and_set() * 10 + flag.test_and_set());
  flag.clear();
  print_i64(flag.test());
  std::atomic_thread_fence(std::memory_order_seq_cst);
  Node nodes[] = {{1, nullptr}, {2, nullptr}, {3, nullptr}};
  for (Node &node : nodes) push(&node);
  long seen = 0;
  for (Node *node = top; node; node = node->next) seen = seen * 10 + node->value;
  print_i64(seen);
  std::atomic<unsigned char> small{250};
  small += 10;
  print_i64(small.load());
  static __int128 wide = 7;
  print_i64(__sync_bool_compare_and_swap(&wide, (__int128)7, (__int128)1 << 70) + (long)(wide >> 68));
  long word = 3;
  print_i64(__sync_fetch_and_add(&word, 4) + __sync_val_compare_and_swap(&word, 7, 9) + word);
  print_i64(__sync_lock_test_and_set(&word, 1) + word);
  __sync_lock_release(&word);
  __sync_synchronize();
  print_i64(__atomic_load_n(&word, __ATOMIC_ACQUIRE));
  std::atomic_ref<long> reference(word);
  reference.fetch_or(6);
  print_i64(word + std::atomic<long>::is_always_lock_free);
  return 0;
}

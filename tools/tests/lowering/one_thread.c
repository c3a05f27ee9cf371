// Atomic accesses, fences and thread-local data of a program with one thread.
// options: --single-thread
#include <hippo.h>
#include <stdatomic.h>
#include <stdbool.h>

PERSISTENT static _Atomic long long counter = 5;
static _Thread_local int own = 3;
static __thread long long table[4];
static atomic_flag lock = ATOMIC_FLAG_INIT;
static _Atomic(void *) pointer;
static _Atomic unsigned char small = 250;

static void locked(int by) {
  while (atomic_flag_test_and_set(&lock)) {}
  own += by;
  atomic_flag_clear(&lock);
}

int main(void) {
  print_i64(atomic_fetch_add(&counter, 3));
  print_i64(atomic_load_explicit(&counter, memory_order_acquire));
  long long expected = 7;
  bool done = atomic_compare_exchange_strong(&counter, &expected, 100);
  print_i64(done * 1000 + expected);
  done = atomic_compare_exchange_weak(&counter, &expected, 200);
  print_i64(done * 1000 + atomic_load(&counter));
  print_i64(atomic_exchange(&counter, -1) + atomic_fetch_or(&counter, 6) + atomic_fetch_xor(&counter, 9));
  print_i64(__sync_fetch_and_add(&table[1], 4) + __sync_val_compare_and_swap(&table[1], 4, 8) + table[1]);
  print_i64(__atomic_fetch_nand(&table[1], 12, __ATOMIC_SEQ_CST) + table[1]);
  small += 10;
  print_i64(small);
  atomic_store(&pointer, &own);
  atomic_thread_fence(memory_order_seq_cst);
  __sync_synchronize();
  locked(4);
  print_i64(*(int *)atomic_load(&pointer));
  pmem_persist((const void *)&counter, sizeof counter);
  print_i64(__atomic_fetch_max(&table[2], 5, __ATOMIC_RELAXED) + __atomic_fetch_min(&table[2], 3, __ATOMIC_RELAXED) + table[2]);
  return 0;
}

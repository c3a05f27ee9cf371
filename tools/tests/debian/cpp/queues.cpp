// Queues without locks: moodycamel's two, used by one thread, with their results in persistent memory.
#include "persistent_memory.hpp"
#include <concurrentqueue/concurrentqueue.h>
#include <readerwriterqueue/readerwriterqueue.h>

struct Traits : moodycamel::ConcurrentQueueDefaultTraits {
  static void *malloc(size_t size) { return persistent::take(size, 16); }
  static void free(void *) {}
};

int main() {
  moodycamel::ConcurrentQueue<long, Traits> many(40);
  moodycamel::ReaderWriterQueue<long, 16> two(20);
  moodycamel::ProducerToken token(many);
  long *sums = static_cast<long *>(persistent::take(2 * sizeof(long), 64)), got;
  for (int i = 0; i < 150; i++) {
    long number = draw(10000);
    i & 1 ? many.enqueue(token, number) : many.enqueue(number);
    two.enqueue(number);
    if (i % 3 == 2 && many.try_dequeue(got)) sums[0] = sums[0] * 31 + got;
    if (i % 4 == 3 && two.try_dequeue(got)) sums[1] = sums[1] * 37 + got;
    persistent::persist(sums, 2 * sizeof(long));
  }
  long batch[20];
  for (size_t count; (count = many.try_dequeue_bulk(batch, 20));)
    for (size_t i = 0; i < count; i++) sums[0] = sums[0] * 31 + batch[i];
  while (two.try_dequeue(got)) sums[1] = sums[1] * 37 + got;
  persistent::persist(sums, 2 * sizeof(long));
  print_i64(sums[0]);
  print_i64(sums[1]);
  print_i64(static_cast<long long>(many.size_approx()));
  return 0;
}

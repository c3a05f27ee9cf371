// std::call_once, locks of each kind, and what a thread asks about itself.
// options: --single-thread
#include <hippo.h>
#include <mutex>
#include <shared_mutex>

static std::once_flag flag;
static long count;
static std::recursive_mutex again;

static long deep(int level) {
  std::lock_guard<std::recursive_mutex> guard(again);
  return level ? 1 + deep(level - 1) : 0;
}

int main() {
  for (int time = 0; time < 3; time++) std::call_once(flag, [](long by) { count += by; }, 7L);
  print_i64(count);
  std::mutex one, two;
  {
    std::scoped_lock both(one, two);
    count++;
  }
  std::unique_lock<std::mutex> lock(one, std::defer_lock);
  print_i64(lock.owns_lock() * 10 + lock.try_lock());
  lock.unlock();
  std::shared_mutex shared;
  {
    std::shared_lock<std::shared_mutex> reader(shared);
    print_i64(reader.owns_lock());
  }
  std::unique_lock<std::shared_mutex> writer(shared);
  print_i64(deep(4) + count);
  return 0;
}

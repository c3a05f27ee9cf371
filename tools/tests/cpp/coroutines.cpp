// A coroutine that yields, one that waits for another one, and destruction of one that has not ended.
#include <coroutine>
#include <hippo.h>
#include <utility>

struct Noted {
  long number;
  ~Noted() { print_i64(-number); }
};

struct Numbers {
  struct promise_type {
    long value = 0;
    Numbers get_return_object() { return Numbers{std::coroutine_handle<promise_type>::from_promise(*this)}; }
    std::suspend_always initial_suspend() noexcept { return {}; }
    std::suspend_always final_suspend() noexcept { return {}; }
    std::suspend_always yield_value(long given) { return value = given, std::suspend_always{}; }
    void return_void() {}
    void unhandled_exception() {}
  };
  std::coroutine_handle<promise_type> handle;
  explicit Numbers(std::coroutine_handle<promise_type> given) : handle(given) {}
  Numbers(Numbers &&from) : handle(std::exchange(from.handle, nullptr)) {}
  ~Numbers() {
    if (handle) handle.destroy();
  }
  bool next() { return handle.resume(), !handle.done(); }
  long value() const { return handle.promise().value; }
};

static Numbers squares(long most) {
  Noted noted{most};
  for (long number = 1; number <= most; number++) co_yield number *number;
}

static Numbers twice(long most) {
  Numbers inner = squares(most);
  while (inner.next()) {
    co_yield inner.value();
    co_yield inner.value() * 10;
  }
}

int main() {
  Numbers numbers = squares(3);
  while (numbers.next()) print_i64(numbers.value());
  long sum = 0;
  for (Numbers all = twice(4); all.next();) sum = sum * 3 + all.value();
  print_i64(sum);
  Numbers left = squares(9);
  left.next();
  left.next();
  print_i64(left.value());
  return 0;
}

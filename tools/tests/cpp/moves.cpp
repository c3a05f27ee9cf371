// Copies, moves, what is not copied, and the time at which temporaries end.
#include <hippo.h>
#include <utility>

static long copies, moves, live;
struct Buffer {
  long *words;
  long size;
  explicit Buffer(long count) : words(new long[count]()), size(count) { live++; }
  Buffer(const Buffer &from) : Buffer(from.size) {
    copies++;
    for (long at = 0; at < size; at++) words[at] = from.words[at];
  }
  Buffer(Buffer &&from) noexcept : words(std::exchange(from.words, nullptr)), size(std::exchange(from.size, 0)) { moves++, live++; }
  Buffer &operator=(Buffer from) noexcept {
    std::swap(words, from.words);
    std::swap(size, from.size);
    return *this;
  }
  ~Buffer() { delete[] words, live--; }
};

static Buffer made(long count) {
  Buffer buffer(count);
  buffer.words[0] = count;
  return buffer;
}
static Buffer passed(Buffer buffer) { return buffer; }
static long of(const Buffer &buffer) { return buffer.size * 10; }
static long of(Buffer &&buffer) { return buffer.size * 100; }
static void report() { print_i64(copies * 10000 + moves * 100 + live); }

struct End {
  long number;
  ~End() { print_i64(-number); }
  const End &self() const { return *this; }
};

template <class T> static long forwarded(T &&given) { return of(std::forward<T>(given)); }

int main() {
  {
    Buffer one = made(3), two = one;
    report();
    Buffer three = std::move(two);
    report();
    two = three;
    report();
    three = made(5);
    report();
    Buffer four = passed(std::move(three));
    report();
    print_i64(four.words[0] + one.words[0] + two.size);
    print_i64(forwarded(one) + forwarded(made(2)));
    const Buffer &kept = made(7);
    print_i64(kept.size);
  }
  report();
  const End &longer = End{1};
  print_i64(End{2}.self().number);
  print_i64(longer.number);
  return 0;
}

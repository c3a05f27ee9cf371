// Iterators of one's own in algorithms of the library, reverse iterators, adaptors, and a container that is a template of templates.
#include <algorithm>
#include <hippo.h>
#include <iterator>
#include <vector>
template <class T> class Ring {
  std::vector<T> items;
  std::size_t start = 0;

public:
  class Iterator {
    const Ring *ring = nullptr;
    std::ptrdiff_t at = 0;

  public:
    using iterator_category = std::random_access_iterator_tag;
    using value_type = T;
    using difference_type = std::ptrdiff_t;
    using pointer = const T *;
    using reference = const T &;
    Iterator() = default;
    Iterator(const Ring *given, std::ptrdiff_t place) : ring(given), at(place) {}
    reference operator*() const { return ring->items[(ring->start + at) % ring->items.size()]; }
    Iterator &operator++() { return at++, *this; }
    Iterator operator++(int) { return {ring, at++}; }
    Iterator &operator--() { return at--, *this; }
    Iterator &operator+=(difference_type by) { return at += by, *this; }
    friend Iterator operator+(Iterator from, difference_type by) { return from += by; }
    friend Iterator operator-(Iterator from, difference_type by) { return from += -by; }
    friend difference_type operator-(const Iterator &a, const Iterator &b) { return a.at - b.at; }
    reference operator[](difference_type by) const { return *(*this + by); }
    auto operator<=>(const Iterator &other) const { return at <=> other.at; }
    bool operator==(const Iterator &other) const { return at == other.at; }
  };
  explicit Ring(std::vector<T> given, std::size_t from) : items(std::move(given)), start(from) {}
  Iterator begin() const { return {this, 0}; }
  Iterator end() const { return {this, static_cast<std::ptrdiff_t>(items.size())}; }
};
int main() {
  Ring<long> ring({1, 3, 5, 7, 9, 2}, 5);
  long sum = 0;
  for (long number : ring) sum = sum * 10 + number;
  print_i64(sum);
  print_i64(*std::lower_bound(ring.begin(), ring.end(), 4) * 10 + std::count_if(ring.begin(), ring.end(), [](long n) { return n > 4; }));
  sum = 0;
  std::for_each(std::make_reverse_iterator(ring.end()), std::make_reverse_iterator(ring.begin()), [&](long n) { sum = sum * 10 + n; });
  print_i64(sum);
  std::vector<long> copy;
  std::copy(ring.begin() + 1, ring.end(), std::back_inserter(copy));
  std::move_backward(copy.begin(), copy.begin() + 3, copy.end());
  for (sum = 0; long number : copy) sum = sum * 10 + number;
  print_i64(sum + std::distance(ring.begin(), ring.end()));
  print_i64(ring.begin()[2] + *std::max_element(ring.begin(), ring.end()) + *std::next(ring.begin(), 3));
  return 0;
}

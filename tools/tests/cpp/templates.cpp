// Templates: any number of parameters, folds, a base that knows its class, specialisations, concepts and values as parameters.
#include <hippo.h>

template <class... Numbers> constexpr long sum(Numbers... numbers) { return (0 + ... + numbers); }

template <class Own> struct Counted {
  static inline long count = 0;
  Counted() { count++; }
  long twice() { return 2 * static_cast<Own *>(this)->value(); }
};
struct Three : Counted<Three> { long value() { return 3; } };
struct Five : Counted<Five> { long value() { return 5; } };

template <class T> struct Kind { static constexpr long number = 1; };
template <class T> struct Kind<T *> { static constexpr long number = 10 + Kind<T>::number; };
template <class T, unsigned long N> struct Kind<T[N]> { static constexpr long number = 100 * N + Kind<T>::number; };

template <class T> concept Sized = requires(const T &given) { given.size(); };

template <class T> long measure(const T &) { return -1; }
template <Sized T> long measure(const T &given) { return given.size(); }

template <class T, unsigned Size> struct Ring {
  T items[Size] = {};
  unsigned next = 0;
  void put(const T &item) { items[next++ % Size] = item; }
  long size() const { return next < Size ? next : Size; }
  template <class Function> auto fold(T start, Function function) const {
    for (const T &item : items) start = function(start, item);
    return start;
  }
};

template <auto Value> struct Constant { static constexpr auto value = Value; };

template <class T> long by_kind(T given) {
  if constexpr (sizeof(T) == 1) return given * 2;
  else if constexpr (sizeof(T) == 8) return given * 3;
  else return given;
}

template <template <class> class Holder, class T> struct Outer { Holder<T> inner; };

int main() {
  print_i64(sum(1, 2L, (short)3, 'a'));
  Three three, more;
  Five five;
  print_i64(three.twice() + more.twice() + five.twice());
  print_i64(Counted<Three>::count * 10 + Counted<Five>::count);
  print_i64(Kind<int **>::number);
  print_i64(Kind<char[4][2]>::number);
  Ring<long, 4> ring;
  for (long item = 1; item < 7; item++) ring.put(item * item);
  print_i64(ring.fold(0, [](long a, long b) { return a * 10 + b; }));
  print_i64(measure(ring) * 10 + measure(5));
  print_i64(Constant<'x'>::value + ring.*Constant<&Ring<long, 4>::next>::value);
  print_i64(by_kind((char)5) + by_kind(5L) + by_kind((short)5));
  Outer<Kind, int *> outer;
  print_i64(sizeof outer.inner + decltype(outer.inner)::number);
  return 0;
}

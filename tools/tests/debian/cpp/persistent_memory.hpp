// For the drivers in C++: an allocator over persistent memory, and steps that make its contents durable and check them. The libraries
// flush nothing themselves.
#ifndef PERSISTENT_MEMORY_HPP
#define PERSISTENT_MEMORY_HPP

#include "../draw.h"
#include <cstddef>
#include <new>
#include <type_traits>
#include <utility>

#ifndef ARENA
#define ARENA (1 << 18)
#endif

namespace persistent {
struct Arena {
  std::size_t used = 0;
  alignas(64) unsigned char bytes[ARENA] = {};
};
PERSISTENT inline Arena arena;

inline void *take(std::size_t size, std::size_t alignment) {
  std::size_t at = (arena.used + alignment - 1) & ~(alignment - 1);
  if (size > ARENA || at > ARENA - size) __builtin_trap();
  arena.used = at + size;
  return arena.bytes + at;
}

// Blocks are aligned for any type, and are never used again.
template <class T> struct Allocator {
  using value_type = T;
  using pointer = T *;
  using const_pointer = const T *;
  using reference = std::add_lvalue_reference_t<T>;
  using const_reference = std::add_lvalue_reference_t<const T>;
  using size_type = std::size_t;
  using difference_type = std::ptrdiff_t;
  template <class U> struct rebind {
    using other = Allocator<U>;
  };
  Allocator() = default;
  template <class U> Allocator(const Allocator<U> &) {}
  T *allocate(std::size_t count) { return static_cast<T *>(take(count * sizeof(T), alignof(T) < 16 ? 16 : alignof(T))); }
  void deallocate(T *, std::size_t) {}
  template <class U, class... Words> void construct(U *at, Words &&...words) { new (at) U(std::forward<Words>(words)...); }
  template <class U> void destroy(U *at) { at->~U(); }
  size_type max_size() const { return ARENA / sizeof(T); }
  friend bool operator==(Allocator, Allocator) { return true; }
  friend bool operator!=(Allocator, Allocator) { return false; }
};

// The bytes at `data` are made durable, and this is checked.
inline void persist(const void *data, std::size_t size) {
  const char *end = static_cast<const char *>(data) + size;
  for (const char *line = reinterpret_cast<const char *>(reinterpret_cast<std::size_t>(data) & ~std::size_t(63)); line < end; line += 64)
    _mm_clwb(const_cast<char *>(line));
  _mm_sfence();
  pm_assert(data, size);
}

// A number that the order of what is added changes.
struct Digest {
  unsigned long long sum = 0;
  void add(unsigned long long number) { sum = (sum * 1099511628211u + number) ^ (sum >> 29); }
  void add(const char *text) {
    while (*text) add(static_cast<unsigned char>(*text++));
  }
  void print() const { print_i64(static_cast<long long>(sum)); }
};
} // namespace persistent

#endif

// Flushes and fences as engines of the field write them: loops over cache lines, a delay by the processor's counter, prefix bytes.
#pragma once
#include <cstddef>
#include <cstdint>
#include <hippo.h>

constexpr std::size_t cache_line = 64;
static unsigned long write_latency_in_ns = 100;
static unsigned long cycles_in_us = 2100;

static inline void cpu_pause() { __asm__ volatile("pause" ::: "memory"); }
static inline unsigned long read_tsc() {
  unsigned int low, high;
  asm volatile("rdtsc" : "=a"(low), "=d"(high));
  return static_cast<unsigned long>(high) << 32 | low;
}
static inline void fence() { asm volatile("sfence" ::: "memory"); }

static inline void clflush(const volatile void *data, std::size_t size) {
  volatile char *line = reinterpret_cast<volatile char *>(reinterpret_cast<unsigned long>(data) & ~(cache_line - 1));
  for (; line < static_cast<const volatile char *>(data) + size; line += cache_line) {
    unsigned long end = read_tsc() + write_latency_in_ns * cycles_in_us / 1000;
    asm volatile(".byte 0x66; clflush %0" : "+m"(*line));
    while (read_tsc() < end) cpu_pause();
  }
  fence();
}

template <class T> static inline void persist(const T &object) { clflush(&object, sizeof object); }

// Gives blocks of one persistent array, each at the beginning of a cache line.
template <std::size_t Size> class Arena {
  alignas(cache_line) unsigned char bytes[Size] = {};
  alignas(cache_line) std::size_t used = 0;

public:
  void *take(std::size_t size) {
    std::size_t at = used;
    if (at + size > Size) __builtin_trap();
    used = (at + size + cache_line - 1) & ~(cache_line - 1);
    persist(used);
    return bytes + at;
  }
};

#ifndef BUG
#define BUG 0
#endif

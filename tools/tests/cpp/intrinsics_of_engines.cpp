// What engines write themselves: aligned cache lines, prefix bytes, the counter of time, locks of one word, versions.
// options: --single-thread
#include <atomic>
#include <cstdint>
#include <emmintrin.h>
#include <hippo.h>
struct alignas(64) Line {
  std::atomic<std::uint64_t> version{0};
  std::uint8_t keys[16] = {};
  std::uint32_t values[8] = {};
};
PERSISTENT static constinit Line lines[2];
static unsigned long tsc() {
  unsigned low, high;
  asm volatile("rdtsc" : "=a"(low), "=d"(high));
  return static_cast<unsigned long>(high) << 32 | low;
}
static void flush(const void *data, std::size_t size) {
  for (auto at = reinterpret_cast<std::uintptr_t>(data) & ~63ul; at < reinterpret_cast<std::uintptr_t>(data) + size; at += 64) {
    unsigned long end = tsc() + 3000;
    asm volatile(".byte 0x66; xsaveopt %0" : "+m"(*reinterpret_cast<volatile char *>(at)));
    while (tsc() < end) asm volatile("pause" ::: "memory");
  }
  asm volatile("sfence" ::: "memory");
}
static bool lock(Line &line) {
  std::uint64_t seen = line.version.load(std::memory_order_acquire);
  return !(seen & 1) && line.version.compare_exchange_strong(seen, seen + 1);
}
static void unlock(Line &line) { line.version.fetch_add(1, std::memory_order_release); }
int main() {
  for (unsigned number = 0; number < 8; number++) {
    Line &line = lines[number & 1];
    while (!lock(line)) _mm_pause();
    line.values[number] = number * 11;
    flush(&line.values[number], 4);
    line.keys[number] = static_cast<std::uint8_t>(number + 100);
    flush(&line.keys[number], 1);
    unlock(line);
    flush(&line.version, 8);
  }
  print_i64(lines[0].version + lines[1].version * 100);
  __m128i keys = _mm_loadu_si128(reinterpret_cast<const __m128i *>(lines[1].keys));
  print_i64(_mm_movemask_epi8(_mm_cmpeq_epi8(keys, _mm_set1_epi8(103))));
  print_i64(_mm_movemask_epi8(_mm_cmpgt_epi8(keys, _mm_setzero_si128())));
  print_i64(reinterpret_cast<std::uintptr_t>(&lines[1]) % 64 + lines[1].values[7]);
  static long word = 5;
  print_i64(__sync_bool_compare_and_swap(&word, 5, 6) * 10 + __sync_add_and_fetch(&word, 2));
  return 0;
}

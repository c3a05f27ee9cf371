// Spans, bitsets, arrays, and the functions on bits.
#include <array>
#include <bit>
#include <bitset>
#include <cstddef>
#include <hippo.h>
#include <span>
static long sum(std::span<const int> numbers) {
  long found = 0;
  for (int number : numbers) found = found * 10 + number;
  return found;
}
int main() {
  std::array<int, 5> array{1, 2, 3, 4, 5};
  std::span<int> span(array);
  span[1] = 9;
  print_i64(sum(array) + sum(span.subspan(2, 2)) + sum(span.last<1>()));
  std::bitset<70> bits;
  bits.set(69).set(3).flip(4);
  print_i64(bits.count() * 1000 + bits._Find_first() * 100 + bits._Find_next(4));
  bits <<= 2;
  print_i64(bits.test(5) + 2 * bits.any() + 4 * bits.test(69) + (bits & std::bitset<70>(0x60)).to_ulong());
  print_i64(std::popcount(0xf0f0u) * 100 + std::countl_zero(1u) + std::countr_one(7u));
  print_i64(std::rotl(0x80000001u, 4) + std::bit_ceil(37u) + std::bit_width(255u) + std::has_single_bit(64u));
  std::byte byte{0x5a};
  byte = (byte << 1) | std::byte{1};
  print_i64(std::to_integer<int>(byte));
  print_i64(std::bit_cast<unsigned>(1.5f));
  std::array<std::array<short, 3>, 2> grid{{{1, 2, 3}, {4, 5, 6}}};
  print_i64(grid[1][2] * 10 + std::get<0>(grid)[1] + grid.size());
  print_i64(array == std::array<int, 5>{1, 9, 3, 4, 5});
  return 0;
}

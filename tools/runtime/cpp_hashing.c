// What std::unordered_map and std::hash have outside of the headers of libstdc++: the same hashes and the same numbers of buckets, so
// the order of the elements is that of a native build. The load factor is a float; its bits are read as a fraction of integers.
#include <stdbool.h>
#include <stddef.h>
#include <stdint.h>
#include <string.h>

// The numbers of buckets that libstdc++ 12 takes, up to what the heap can hold.
static const unsigned few[] = {1, 2, 2, 3, 5, 5, 7, 7, 11, 11, 11, 11, 13, 13};
static const unsigned many[] = {
  17, 19, 23, 29, 31, 37, 41, 43, 47, 53, 59, 61, 67, 71, 73, 79, 83, 89, 97, 103, 109, 113, 127, 137, 139, 149, 157, 167, 179,
  193, 199, 211, 227, 241, 257, 277, 293, 313, 337, 359, 383, 409, 439, 467, 503, 541, 577, 619, 661, 709, 761, 823, 887, 953,
  1031, 1109, 1193, 1289, 1381, 1493, 1613, 1741, 1879, 2029, 2179, 2357, 2549, 2753, 2971, 3209, 3469, 3739, 4027, 4349, 4703,
  5087, 5503, 5953, 6427, 6949, 7517, 8123, 8783, 9497, 10273, 11113, 12011, 12983, 14033, 15173, 16411, 17749, 19183, 20753,
  22447, 24281, 26267, 28411, 30727, 33223, 35933, 38873, 42043, 45481, 49201, 53201, 57557, 62233, 67307, 72817, 78779, 85229,
  92203, 99733, 107897, 116731, 126271, 136607, 147793, 159871, 172933, 187091, 202409, 218971, 236897, 256279, 277261, 299951,
  324503, 351061, 379787, 410857, 444487, 480881, 520241, 562841, 608903, 658753, 712697, 771049, 834181, 902483, 976369,
  1056323, 1142821, 1236397, 1337629, 1447153, 1565659, 1693859, 1832561, 1982627, 2144977, 2320627, 2510653, 2716249, 2938679,
  3179303, 3439651, 3721303, 4026031, 4355707, 4712381, 5098259, 5515729, 5967347, 6456007, 6984629, 7556579, 8175383, 8844859,
  9569143, 10352717, 11200489, 12117689, 13109983, 14183539, 15345007, 16601593, 17961079, 19431899,
};

struct policy {
  uint32_t load; // a float
  size_t limit;
};

struct need {
  bool rehash;
  size_t buckets;
};

// The load factor is `part` / 2^`scale`.
struct factor {
  uint64_t part;
  unsigned scale;
};

static struct factor factor_of(const struct policy *policy) {
  unsigned exponent = policy->load >> 23;
  if (exponent < 112 || exponent > 150) __builtin_trap(); // a load factor below 2^-15, above 2^23, or negative
  struct factor found = {(policy->load & 0x7fffff) | 0x800000, 150 - exponent};
  return found;
}

static size_t times(size_t number, struct factor factor) { return number * factor.part >> factor.scale; }

static size_t next_buckets(struct policy *policy, size_t least) {
  size_t found = 0;
  if (least < sizeof few / sizeof *few) {
    if (!least) return 1; // the first, empty table; its limit stays
    found = few[least];
  }
  for (size_t index = 0; !found; index++) {
    if (index == sizeof many / sizeof *many) __builtin_trap();
    if (many[index] >= least) found = many[index];
  }
  policy->limit = times(found, factor_of(policy));
  return found;
}

size_t _ZNKSt8__detail20_Prime_rehash_policy11_M_next_bktEm(struct policy *policy, size_t least) {
  return next_buckets(policy, least);
}

struct need _ZNKSt8__detail20_Prime_rehash_policy14_M_need_rehashEmmm(struct policy *policy, size_t buckets, size_t elements, size_t more) {
  struct need need = {false, 0};
  size_t wanted = elements + more;
  if (wanted <= policy->limit) return need;
  struct factor factor = factor_of(policy);
  if (!policy->limit && wanted < 11) wanted = 11;
  if (wanted << factor.scale < buckets * factor.part) {
    policy->limit = times(buckets, factor);
    return need;
  }
  size_t least = (wanted << factor.scale) / factor.part + 1;
  need.rehash = true;
  need.buckets = next_buckets(policy, least > 2 * buckets ? least : 2 * buckets);
  return need;
}

// MurmurHash64A.
static uint64_t mixed(uint64_t number) { return number ^ number >> 47; }

static uint64_t word_at(const unsigned char *from, size_t count) {
  uint64_t word = 0;
  while (count--) word = word << 8 | from[count];
  return word;
}

size_t _ZSt11_Hash_bytesPKvmm(const void *from, size_t size, size_t seed) {
  const uint64_t factor = 0xc6a4a7935bd1e995;
  const unsigned char *at = from, *end = at + (size & ~(size_t)7);
  uint64_t hash = seed ^ size * factor;
  for (; at != end; at += 8) hash = (hash ^ mixed(word_at(at, 8) * factor) * factor) * factor;
  if (size & 7) hash = (hash ^ word_at(end, size & 7)) * factor;
  return mixed(mixed(hash) * factor);
}

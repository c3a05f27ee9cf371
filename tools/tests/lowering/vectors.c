// Vectors, as code for SSE2 uses them: loads, stores, comparisons, masks, shuffles by constants, packing, shifts, and vectors of numbers.
#include <hippo.h>
#include <emmintrin.h>
#include <stdarg.h>
#include <string.h>

struct node { _Alignas(16) unsigned char keys[16]; long long values[16]; };

PERSISTENT static struct node node;
PERSISTENT static _Alignas(64) long long words[8];
static const __v4si TABLE = {1, -2, 3, -4};
static const struct { char tag; __v2df pair; } TAGGED = {'t', {1.5, -2.5}};

static void show(__m128i vector) {
  long long parts[2];
  _mm_storeu_si128((__m128i *)parts, vector);
  print_i64(parts[0]);
  print_i64(parts[1]);
}

// The place of a key in a node, as in an adaptive radix tree.
static int find(const struct node *at, unsigned char key, int count) {
  __m128i same = _mm_cmpeq_epi8(_mm_set1_epi8((char)key), _mm_load_si128((const __m128i *)at->keys));
  int bits = _mm_movemask_epi8(same) & ((1 << count) - 1);
  return bits ? __builtin_ctz(bits) : -1;
}

static int first_above(const struct node *at, unsigned char key, int count) {
  __m128i flipped = _mm_xor_si128(_mm_loadu_si128((const __m128i *)at->keys), _mm_set1_epi8(-128));
  int bits = _mm_movemask_epi8(_mm_cmplt_epi8(_mm_set1_epi8((char)(key ^ 128)), flipped)) & ((1 << count) - 1);
  return bits ? __builtin_ctz(bits) : count;
}

static void insert(unsigned char key, long long value, int count) {
  int place = first_above(&node, key, count);
  memmove(node.keys + place + 1, node.keys + place, count - place);
  memmove(node.values + place + 1, node.values + place, (count - place) * sizeof *node.values);
  node.keys[place] = key;
  node.values[place] = value;
}

static __m128i turned(__m128i given, __m128i other) { return _mm_unpacklo_epi16(_mm_shuffle_epi32(given, 0x1b), other); }

static void operations(__m128i a, __m128i b) {
  show(_mm_add_epi8(a, b)), show(_mm_sub_epi16(a, b)), show(_mm_add_epi32(a, b)), show(_mm_sub_epi64(a, b));
  show(_mm_and_si128(a, b)), show(_mm_or_si128(a, b)), show(_mm_andnot_si128(a, b)), show(_mm_mullo_epi16(a, b));
  show(_mm_adds_epu8(a, b)), show(_mm_subs_epi16(a, b)), show(_mm_max_epu8(a, b)), show(_mm_min_epi16(a, b));
  show(_mm_avg_epu8(a, b));
  show(_mm_cmpgt_epi32(a, b)), show(_mm_cmpeq_epi16(a, b)), show(_mm_packs_epi16(a, b)), show(_mm_packus_epi16(a, b));
  show(_mm_packs_epi32(a, b));
  show(_mm_slli_epi16(a, 3)), show(_mm_srli_epi32(a, 7)), show(_mm_srai_epi16(b, 20)), show(_mm_slli_epi64(b, 64));
  show(_mm_srli_epi64(a, 1));
  show(_mm_slli_si128(a, 5)), show(_mm_srli_si128(a, 9)), show(turned(a, b)), show(_mm_unpackhi_epi8(a, b)), show(_mm_mul_epu32(a, b));
  show(_mm_avg_epu16(a, b)), show(_mm_mulhi_epi16(a, b)), show(_mm_mulhi_epu16(a, b)), show(_mm_madd_epi16(a, b)), show(_mm_sad_epu8(a, b));
  print_i64(_mm_movemask_ps(_mm_castsi128_ps(a))), print_i64(_mm_movemask_pd(_mm_castsi128_pd(b)));
  print_i64(_mm_extract_epi16(a, 3)), print_i64(_mm_cvtsi128_si64(b)), print_i64(_mm_cvtsi128_si32(a));
  show(_mm_insert_epi16(a, 77, 6)), show(_mm_slli_epi32(b, (int)read_i64())), show(_mm_srai_epi32(b, (int)read_i64()));
  show(_mm_set_epi64x(read_i64(), 5)), show(_mm_cvtsi32_si128((int)read_i64()));
}

static void numbers(double x) {
  __m128d a = _mm_set_pd(x, 2.5), b = _mm_set1_pd(-0.75);
  show(_mm_castpd_si128(_mm_add_pd(_mm_mul_pd(a, b), TAGGED.pair)));
  show(_mm_castpd_si128(_mm_cmplt_pd(a, b)));
  __m128 c = _mm_set_ps(1, (float)x, -3, 4.5f);
  show(_mm_castps_si128(_mm_div_ps(c, _mm_shuffle_ps(c, c, 0x93))));
  show((__m128i)(TABLE * (__v4si){5, 6, 7, (int)x}));
  print_i64(TABLE[(int)x & 3] + __builtin_reduce_add(TABLE));
}

// Vectors among variable arguments, in the registers of floating-point numbers and on the stack.
static void variable(int count, ...) {
  va_list list;
  va_start(list, count);
  for (int i = 0; i < count; i++) {
    show(va_arg(list, __m128i));
    _Complex float pair = va_arg(list, _Complex float);
    print_i64((long long)(__real__ pair * 8) * 100 + (long long)__imag__ pair);
    print_i64(va_arg(list, int));
    print_i64((long long)va_arg(list, double));
  }
  va_end(list);
}

int main(void) {
  for (int i = 0; i < 12; i++) insert((unsigned char)(i * 37 + 11), i, i);
  for (int key = 0; key < 256; key += 15) {
    print_i64(find(&node, (unsigned char)key, 12));
    print_i64(first_above(&node, (unsigned char)key, 12));
  }
  print_i64(find(&node, 11, 12));
  __m128i a = _mm_set_epi8(1, -2, 3, -4, 5, 120, 7, -128, 9, 10, -11, 12, 127, 14, 15, 16), b = _mm_set_epi32(-7, 700000, 70, -2000000000);
  operations(a, b);
  numbers(3.25);
  _Complex float pair = 1.5f + 7.0if;
  variable(4, a, pair, 3, 4.0, b, pair, 5, 6.0, b, pair * 2, 7, 8.0, a, pair, 9, 10.0);
  _mm_store_si128((__m128i *)words, a);
  _mm_storeu_si128((__m128i *)(words + 3), b);
  _mm_clwb(words);
  _mm_sfence();
  for (int i = 0; i < 8; i++) print_i64(words[i]);
  return 0;
}

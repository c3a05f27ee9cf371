// Stores that are durable only if the flush reaches each of their bytes. Each function has objects of its own; `hippo check` must report
// those whose names begin with `lost`, and no `kept` one.
// options: --single-thread
#include <hippo.h>
#include <stdatomic.h>
#include <string.h>

#define EACH __attribute__((noinline)) static void
#define LINE PERSISTENT static _Alignas(64)
#define PACKED __attribute__((packed))
static void clwb(const void *at) { _mm_clwb((void *)at); _mm_sfence(); }

// A field in two cache lines.
struct PACKED odd { char pad[60]; long value; };
LINE struct odd o1, o2;
EACH lost_end_of_a_packed_field(void) { o1.value = 5; clwb(&o1.value); }
EACH kept_packed_field(void) { o2.value = 5; _mm_clwb(&o2.value); clwb((char *)&o2.value + 7); }

// Vectors, numbers of 128 bits and long doubles are stored in words.
LINE char v1[128], v2[128];
EACH lost_end_of_a_vector(void) { _mm_storeu_si128((__m128i *)(v1 + 56), _mm_set1_epi8(3)); clwb(v1 + 56); }
EACH kept_vector(void) { _mm_storeu_si128((__m128i *)(v2 + 56), _mm_set1_epi8(3)); pmem_persist(v2 + 56, 16); }
LINE struct { char pad[56]; __int128 value; } w1, w2;
EACH lost_wide_number(void) { w1.value = 5; clwb(w1.pad + 56); }
EACH kept_wide_number(void) { w2.value = 5; clwb(&w2.value); }
LINE struct PACKED { char pad[55]; long double value; } d1, d2;
static long double number = 1.5L;
EACH lost_end_of_a_long_double(void) { d1.value = number; clwb(&d1.value); }
EACH kept_long_double(void) { d2.value = number; pmem_persist(&d2.value, 10); }
LINE struct PACKED { char pad[61]; unsigned long a : 20, b : 30; } f1, f2;
EACH lost_bit_field(void) { f1.b = (unsigned long)read_i64(); clwb(&f1.pad); }
EACH kept_bit_field(void) { f2.b = (unsigned long)read_i64(); pmem_persist(&f2, sizeof f2); }
LINE _BitInt(200) i1, i2;
EACH lost_first_word_of_a_number(void) { i1 = read_i64(); pmem_persist((char *)&i1 + 8, 17); i1 = read_i64(); }
EACH kept_number(void) { i2 = read_i64(); pmem_persist(&i2, sizeof i2); }

// Copies, as assignments and as calls.
struct text { char bytes[70]; };
static struct text source = {"text"};
LINE struct text t1, t2, t3;
EACH lost_end_of_an_assignment(void) { source.bytes[69] = 3; t1 = source; clwb(&t1); }
EACH kept_assignment(void) { source.bytes[69] = 4; t2 = source; pmem_persist(&t2, sizeof t2); }
EACH flush_of(struct text copy) { pmem_persist(&copy, sizeof copy); }
EACH lost_because_a_copy_is_flushed(void) { t3.bytes[1] = 3; flush_of(t3); }
LINE char m1[200], m2[200];
EACH lost_end_of_a_fill(void) { memset(m1 + 3, 7, 62); clwb(m1 + 3); }
EACH kept_fill(void) { memset(m2 + 3, 7, 62); pmem_persist(m2 + 3, 62); }
LINE struct { long length; char bytes[]; } flexible = {100, {1, 2, 3, [99] = 4}};
EACH lost_byte_of_a_flexible_array(void) { flexible.bytes[60] = 3; clwb(&flexible); }

// The order of a store, its flush and the fence.
LINE long p1, p2, p3, p4;
EACH lost_after_its_flush(void) { _mm_clwb(&p1); p1 = 3; _mm_sfence(); }
EACH lost_without_a_fence(void) { p2 = 3; _mm_clwb(&p2); _mm_lfence(); __asm__ volatile("" ::: "memory"); pm_assert(&p2, 8); }
EACH kept_in_order(void) { p3 = 3; __asm__ volatile("clwb %0" : "+m"(p3)); __asm__ volatile("mfence" ::: "memory"); }
LINE _Atomic long a1;
EACH lost_exchange(void) { long expected = 0; atomic_compare_exchange_strong(&a1, &expected, 5); }

// Elements whose place depends on a value.
LINE long e1[64], e2[64];
EACH lost_element(long n) { long (*rows)[n] = (long (*)[n])e1; rows[2][1] = 5; pmem_persist(&rows[1][1], 8); }
EACH kept_element(long n) { long (*rows)[n] = (long (*)[n])e2; rows[2][1] = 5; pmem_persist(&rows[2][1], 8); }
LINE union { long words[16]; struct { char first[65], last; } parts; } u1;
EACH lost_member_of_a_union(void) { u1.parts.last = 3; pmem_persist(&u1.words[0], 64); }
LINE long s1;
EACH lost_in_a_case(long n) {
  s1 = 1;
  switch (n) {
  case 0 ... 9: break;
  case 10: pmem_persist(&s1, 8); break;
  default: __builtin_unreachable();
  }
}

int main(void) {
  lost_end_of_a_packed_field(); kept_packed_field(); lost_end_of_a_vector(); kept_vector(); lost_wide_number(); kept_wide_number();
  lost_end_of_a_long_double(); kept_long_double(); lost_bit_field(); kept_bit_field(); lost_first_word_of_a_number(); kept_number();
  lost_end_of_an_assignment(); kept_assignment(); lost_because_a_copy_is_flushed(); lost_end_of_a_fill(); kept_fill();
  lost_byte_of_a_flexible_array(); lost_after_its_flush(); lost_without_a_fence(); kept_in_order(); lost_exchange();
  lost_element(9); kept_element(9); lost_member_of_a_union(); lost_in_a_case(read_i64());
  return 0;
}

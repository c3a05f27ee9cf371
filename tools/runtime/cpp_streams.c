// std::cout, std::cerr and std::clog: they write nothing. With --print-numbers the integers for std::cout are printed by print_i64.
#include <hippo.h>
#include <stddef.h>

// What the headers read of an object: its table, and in its part that is shared with input streams the letters of the locale.
struct letters {
  unsigned char before[56], is_ready, tables[519];
};

struct stream {
  const long *table; // three words before this place stands the distance to `shared`
  struct {
    const long *table;
    unsigned char format[208];
    struct stream *tied;
    unsigned char fill[8];
    void *buffer;
    struct letters *letters;
    void *others[2];
  } shared;
};

static const long table[] = {8, 0, 0, 0};
static struct letters letters = {.is_ready = 1};

struct stream _ZSt4cout = {table + 3, {table + 3, {0}, 0, {0}, 0, &letters, {0}}};
struct stream _ZSt4cerr = {table + 3, {table + 3, {0}, 0, {0}, 0, &letters, {0}}};
struct stream _ZSt4clog = {table + 3, {table + 3, {0}, 0, {0}, 0, &letters, {0}}};

static struct stream *number(struct stream *to, long long value) {
#ifdef HIPPO_PRINT_NUMBERS
  if (to == &_ZSt4cout) print_i64(value);
#endif
  return (void)value, to;
}

struct stream *_ZNSolsEi(struct stream *to, int value) { return number(to, value); }
struct stream *_ZNSolsEs(struct stream *to, short value) { return number(to, value); }
struct stream *_ZNSo9_M_insertIlEERSoT_(struct stream *to, long value) { return number(to, value); }
struct stream *_ZNSo9_M_insertImEERSoT_(struct stream *to, unsigned long value) { return number(to, value); }
struct stream *_ZNSo9_M_insertIxEERSoT_(struct stream *to, long long value) { return number(to, value); }
struct stream *_ZNSo9_M_insertIyEERSoT_(struct stream *to, unsigned long long value) { return number(to, value); }
struct stream *_ZNSo9_M_insertIbEERSoT_(struct stream *to, _Bool value) { return number(to, value); }
struct stream *_ZNSo9_M_insertIPKvEERSoT_(struct stream *to, const void *value) { return (void)value, to; }
struct stream *_ZNSo9_M_insertIdEERSoT_(struct stream *to, double value) { return (void)value, to; }
struct stream *_ZNSo9_M_insertIeEERSoT_(struct stream *to, long double value) { return (void)value, to; }
struct stream *_ZSt16__ostream_insertIcSt11char_traitsIcEERSt13basic_ostreamIT_T0_ES6_PKS3_l(struct stream *to, const char *text, long size) {
  return (void)text, (void)size, to;
}
struct stream *_ZNSo3putEc(struct stream *to, char letter) { return (void)letter, to; }
struct stream *_ZNSo5writeEPKcl(struct stream *to, const char *text, long size) { return (void)text, (void)size, to; }
struct stream *_ZNSo5flushEv(struct stream *to) { return to; }
void _ZNSt9basic_iosIcSt11char_traitsIcEE5clearESt12_Ios_Iostate(void *shared, int bits) { (void)shared, (void)bits; }
void _ZNKSt5ctypeIcE13_M_widen_initEv(void *letters_) { (void)letters_; }

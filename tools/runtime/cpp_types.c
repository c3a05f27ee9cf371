// dynamic_cast, by the compiler's tables of types.
#include <stddef.h>
#include <stdint.h>
#include <string.h>

// The tables of the kinds of types that a program has of its own. Only their addresses matter.
void *_ZTVN10__cxxabiv117__class_type_infoE[8];
void *_ZTVN10__cxxabiv120__si_class_type_infoE[8];
void *_ZTVN10__cxxabiv121__vmi_class_type_infoE[8];
void *_ZTVN10__cxxabiv119__pointer_type_infoE[8];
void *_ZTVN10__cxxabiv129__pointer_to_member_type_infoE[8];
void *_ZTVN10__cxxabiv120__function_type_infoE[8];
void *_ZTVN10__cxxabiv117__array_type_infoE[8];
void *_ZTVN10__cxxabiv116__enum_type_infoE[8];

enum { VIRTUAL = 1, PUBLIC = 2 }; // of a base
enum { ANY_WAY = 1, PUBLIC_WAY = 2 };

struct base {
  const struct type *type;
  long flags; // the offset above 8 bits
};

struct type {
  void *const *table;
  const char *name;
  const struct type *one; // of a class with one base, which is at its start
};

struct several {
  void *const *table;
  const char *name;
  unsigned flags, count;
  struct base bases[];
};

struct part {
  char *object;
  const struct type *type;
};

// The parts of the wanted type: all, and those that hold the part that the cast starts from.
struct search {
  const struct type *wanted;
  struct part from;
  char *any, *above;
  int count, count_above, ways_to_any, ways_below;
};

static int is_same(const struct type *one, const struct type *two) {
  return one == two || one->name == two->name || (*one->name != '*' && !strcmp(one->name, two->name));
}

// A base of a part by its number, and whether it is public; no type if there are fewer.
static struct part base_of(struct part whole, unsigned number, int *is_public) {
  struct part none = {NULL, NULL};
  *is_public = 1;
  if (whole.type->table == _ZTVN10__cxxabiv120__si_class_type_infoE + 2) {
    struct part first = {whole.object, whole.type->one};
    return number ? none : first;
  }
  const struct several *all = (const struct several *)whole.type;
  if (whole.type->table != _ZTVN10__cxxabiv121__vmi_class_type_infoE + 2 || number >= all->count) return none;
  long flags = all->bases[number].flags, offset = flags >> 8;
  if (flags & VIRTUAL) offset = *(const long *)(*(char **)whole.object + offset);
  *is_public = (flags & PUBLIC) != 0;
  struct part found = {whole.object + offset, all->bases[number].type};
  return found;
}

// The ways from a part to one of its parts.
static int ways(struct part whole, const struct part *to, int access) {
  if (is_same(whole.type, to->type)) return whole.object == to->object ? access : 0;
  int found = 0, is_public;
  for (unsigned number = 0;; number++) {
    struct part base = base_of(whole, number, &is_public);
    if (!base.type) return found;
    found |= ways(base, to, is_public ? access : access & ANY_WAY);
  }
}

static void look(struct search *search, struct part whole, int access) {
  int is_public;
  if (is_same(whole.type, search->wanted)) {
    int below = ways(whole, &search->from, ANY_WAY | PUBLIC_WAY);
    if (search->any != whole.object) search->count++;
    search->any = whole.object;
    search->ways_to_any |= access;
    if (below && search->above != whole.object) search->count_above++;
    if (below) search->above = whole.object;
    search->ways_below |= below;
    return;
  }
  for (unsigned number = 0;; number++) {
    struct part base = base_of(whole, number, &is_public);
    if (!base.type) return;
    look(search, base, is_public ? access : access & ANY_WAY);
  }
}

// The whole object's type and place stand before the first function of its table.
void *__dynamic_cast(const void *object, const struct type *from, const struct type *to, ptrdiff_t hint) {
  (void)hint;
  void *const *table = *(void *const *const *)object;
  struct part whole = {(char *)object + (intptr_t)table[-2], table[-1]};
  struct search search = {to, {(char *)object, from}, NULL, NULL, 0, 0, 0, 0};
  look(&search, whole, ANY_WAY | PUBLIC_WAY);
  if (search.count_above == 1 && search.ways_below & PUBLIC_WAY) return search.above;
  if (search.count != 1 || !(search.ways_to_any & PUBLIC_WAY)) return NULL;
  return ways(whole, &search.from, ANY_WAY | PUBLIC_WAY) & PUBLIC_WAY ? search.any : NULL;
}

// The point of numbers by the locale, as libraries ask for it that read and write texts.
#include <climits>
#include <clocale>
#include <cstring>
#include <hippo.h>

int main() {
  const lconv *locale = localeconv();
  print_i64(locale->decimal_point[0]);
  print_i64(static_cast<long long>(strlen(locale->decimal_point) + strlen(locale->thousands_sep) + strlen(locale->grouping)));
  print_i64(static_cast<long long>(strlen(locale->int_curr_symbol) + strlen(locale->currency_symbol) + strlen(locale->positive_sign)));
  print_i64(static_cast<long long>(strlen(locale->mon_grouping) + strlen(locale->mon_decimal_point) + strlen(locale->negative_sign)));
  print_i64(locale->frac_digits == CHAR_MAX && locale->p_cs_precedes == CHAR_MAX && locale->int_n_sign_posn == CHAR_MAX);
  return 0;
}

// GMP's small library of long numbers, whose numbers lie in persistent memory.
#include "draw.h"
#include "mini-gmp.h"
#include <stdlib.h>
#include <string.h>

static void print_number(const char *what, const mpz_t number) {
  char *text = mpz_get_str(NULL, 16, number);
  long long sum = what[0];
  for (size_t i = 0; text[i]; i++) sum = (sum * 31 + text[i]) % 1000000007;
  print_i64(sum);
  free(text);
}

int main(void) {
  mpz_t a, b, c, d;
  mpz_init_set_ui(a, 1);
  mpz_init_set_str(b, "123456789012345678901234567890123456789", 10);
  mpz_init(c);
  mpz_init(d);
  for (unsigned i = 1; i <= 40; i++) mpz_mul_ui(a, a, i);
  print_number("factorial", a);
  mpz_gcd(c, a, b);
  print_number("gcd", c);
  mpz_fdiv_qr(c, d, a, b);
  print_number("quotient", c);
  print_number("rest", d);
  mpz_powm(c, b, d, a);
  print_number("power", c);
  mpz_sqrt(d, a);
  print_number("root", d);
  mpz_ui_pow_ui(a, 2, 89);
  mpz_sub_ui(a, a, 1);
  print_i64(mpz_probab_prime_p(a, 3));
  mpz_clear(a);
  mpz_clear(b);
  mpz_clear(c);
  mpz_clear(d);
  return 0;
}

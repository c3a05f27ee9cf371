// Absolute values, quotients with remainders, and the lowest bit of a number.
#include <inttypes.h>
#include <stdlib.h>
#include <strings.h>

int abs(int number) { return number < 0 ? -number : number; }
long labs(long number) { return number < 0 ? -number : number; }
long long llabs(long long number) { return number < 0 ? -number : number; }
intmax_t imaxabs(intmax_t number) { return number < 0 ? -number : number; }

div_t div(int number, int by) { return (div_t){number / by, number % by}; }
ldiv_t ldiv(long number, long by) { return (ldiv_t){number / by, number % by}; }
lldiv_t lldiv(long long number, long long by) { return (lldiv_t){number / by, number % by}; }

int ffs(int number) { return number ? __builtin_ctz(number) + 1 : 0; }
int ffsl(long number) { return number ? __builtin_ctzl(number) + 1 : 0; }
int ffsll(long long number) { return number ? __builtin_ctzll(number) + 1 : 0; }

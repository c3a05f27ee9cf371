// The part of musl's "atomic.h" that its sort needs.
#define a_ctz_l(number) __builtin_ctzl(number)

// What ends a program of C++: each traps, and the calls above it name the place. A `throw` is a trap at its own place.
_Noreturn void _ZSt9terminatev(void) { __builtin_trap(); }
_Noreturn void _ZSt21__glibcxx_assert_failPKciS0_S0_(const char *file, int line, const char *function, const char *text) {
  (void)file, (void)line, (void)function, (void)text, __builtin_trap();
}
_Noreturn void __cxa_pure_virtual(void) { __builtin_trap(); }
_Noreturn void __cxa_deleted_virtual(void) { __builtin_trap(); }

// No exception is on its way.
int _ZSt19uncaught_exceptionsv(void) { return 0; }
_Bool _ZSt18uncaught_exceptionv(void) { return 0; }

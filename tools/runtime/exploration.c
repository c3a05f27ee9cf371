// What a program tells hippo-c explore (hippo.h). In a run outside explore nothing was printed before, and marks do nothing.

long long hippo_prints_before;

long long hippo_prints(void) { return hippo_prints_before; }

void hippo_op(void) {}

void hippo_recovered(void) {}

void hippo_assume(int condition) {
  if (!condition) __builtin_trap();
}

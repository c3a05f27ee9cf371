// A redo in two steps, which another power cut repeats; the state is one word.
#include <hippo.h>
PERSISTENT _Alignas(64) long state;     // balance << 1 | committed: one atomic word
PERSISTENT _Alignas(64) long ops;
int main(void)
{
	if (state & 1) {                     // recovery: redo in two steps, not idempotent
		state += 10 << 1;
		pmem_persist(&state, 8);
		state &= ~1L;
		pmem_persist(&state, 8);
	}
	long balance = state >> 1;
	if (balance != 10 * ops && balance != 10 * (ops - 1))
		__builtin_trap();
	ops = balance / 10;
	pmem_persist(&ops, 8);
	for (int i = 0; i < 2; i++) {
		ops += 1;
		pmem_persist(&ops, 8);
		state |= 1;
		pmem_persist(&state, 8);
		state = (state >> 1) + 10 << 1;  // apply and clear in one store
		pmem_persist(&state, 8);
	}
	return 0;
}

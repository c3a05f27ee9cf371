// A redo in two steps, which another power cut repeats.
#include <hippo.h>
struct st { long balance, pending, committed, total; };
PERSISTENT _Alignas(64) struct st s;
static void recover(void)
{
	if (s.committed) {              // redo is not idempotent
		s.balance += s.pending;
		pmem_persist(&s.balance, 8);
		s.total += 1;
		pmem_persist(&s.total, 8);
		s.committed = 0;
		pmem_persist(&s.committed, 8);
	}
	if (s.balance != 10 * s.total)
		__builtin_trap();
}
int main(void)
{
	recover();
	for (int i = 0; i < 4; i++) {
		s.pending = 10;
		pmem_persist(&s.pending, 8);
		s.committed = 1;
		pmem_persist(&s.committed, 8);
		recover();
	}
	return 0;
}

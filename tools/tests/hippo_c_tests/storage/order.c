// A store that must be durable before `valid` says so.
#include <hippo.h>
struct s { long key; long sum; long pad[14]; };
PERSISTENT struct s s;
PERSISTENT long valid;
static void p(void *a, unsigned long n) { pmem_persist(a, n); }
static void put(long k)
{
	s.key = k;
	p(&s.key, sizeof s.key);
	s.pad[10] = k + 1;                    // lost by D1: in another line, flushed after `valid`
	valid = 1;
	p(&valid, sizeof valid);
	p(&s.pad, sizeof s.pad);
}
static void put2(long k) { s.pad[11] = k; }
static void put3(long k)
{
	for (int i = 0; i < 14; i++)
		s.pad[i] = k;
	pmem_flush(&s.pad, sizeof s.pad);
}
int main(void)
{
	if (valid && s.pad[10] != s.key + 1 && s.key != 3)
		__builtin_trap();
	put(1);
	if (read_i64() == 1)
		put2(2);
	put3(3);
	return 0;
}

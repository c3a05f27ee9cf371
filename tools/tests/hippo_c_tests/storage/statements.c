// Statements whose stores --fix suggests flushes for, and those that must be flushed by hand.
#include <hippo.h>
PERSISTENT long a[8];
PERSISTENT long b[8];
PERSISTENT long c;
#define SET(p, v) do { *(p) = (v); _mm_clwb(p); } while (0)
struct bits { unsigned x : 3, y : 5; };
PERSISTENT struct bits bf;
int main(void)
{
	for (int i = 0; i < 8; i++) a[i] = i;
	SET(&b[0], 5);
	long *p = b; *p++ = 4; *p = 3;
	bf.x = 3;
	if (b[1]) c = 1;
	else c = 2;
	return 0;
}

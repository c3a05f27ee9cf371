// Macros in arguments and in conditions, as most C has them.
#include <hippo.h>
#include <stddef.h>
#include <string.h>
#define N 128
PERSISTENT char buf[N];
PERSISTENT long *head;
PERSISTENT long x;
int main(void)
{
	long *p = NULL;
	memset(buf, 1, N);
	if (p == NULL)
		head = &x;
	x = N;
	return 0;
}

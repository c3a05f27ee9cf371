#include "hash_table.h"
#include <stdio.h>
#include <hippo.h>

int main(void)
{
	uint64_t v = 0, i;

	ph_open();
	for (i = 0; i < 40; i++)
		ph_put(i * 7, i);
	for (i = 0; i < 40; i += 3)
		ph_del(i * 7);
	ph_put(7, 99);
	if (!ph_get(7, &v))
		return 2;
	printf("count %llu, v %llu\n", (unsigned long long)ph_count(), (unsigned long long)v);
	ph_verify();
	return 0;
}

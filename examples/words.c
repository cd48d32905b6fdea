/* Prints a filter of C as words. The members of its array stand in members.h. */
#include <stdio.h>
#include <linux/filter.h>
#include <linux/if_ether.h>

struct sock_filter f[] = {
#include "members.h"
};

int main(void)
{
	unsigned n = sizeof f / sizeof *f;

	printf("%u\n", n);
	for (unsigned i = 0; i < n; i++)
		printf("%u %u %u %u\n", f[i].code, f[i].jt, f[i].jf, f[i].k);
}

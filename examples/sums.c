/* Four sums, each of which a region puts on a page of its own: no region needs what another writes.

       ./bop seq examples/sums.c

   Prints 0, 5050, 10100 and 15150, a line each. */
#include <stdio.h>
#include "bop.h"
#define N 4

int part[4096];

int work(int k)
{
    int s;
    int j;
    s = 0;
    for (j = 1; j <= 100; j = j + 1)
        s = s + j * k;
    return s;
}

void print(int n)
{
    if (n > 9)
        print(n / 10);
    putchar('0' + n % 10);
}

int main(void)
{
    int i;
    for (i = 0; i < N; i = i + 1) {
        BeginPPR(7);
        part[i * 1024] = work(i);
        EndPPR(7);
    }
    for (i = 0; i < N; i = i + 1) {
        print(part[i * 1024]);
        putchar('\n');
    }
    return 0;
}

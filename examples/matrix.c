/* The product of two matrices, a region for each row of the result.

       ./bop seq examples/matrix.c

   A row has 1,024 numbers, and so a page of its own: two regions never write one page. The factors are
   only read. Prints the trace of the product, 2640. */
#include <stdio.h>
#include "bop.h"
#define SIZE 16

int product[SIZE][1024];
int left[SIZE][SIZE];
int right[SIZE][SIZE];

void print(int n)
{
    if (n > 9)
        print(n / 10);
    putchar('0' + n % 10);
}

void fill(void)
{
    int i, j;
    for (i = 0; i < SIZE; i++)
        for (j = 0; j < SIZE; j++) {
            left[i][j] = i == j ? 2 : 0;
            right[i][j] = i * 10 + j;
        }
}

int entry(int i, int j)
{
    int k, sum = 0;
    for (k = 0; k < SIZE; k++)
        sum += left[i][k] * right[k][j];
    return sum;
}

int main(void)
{
    int i, j, trace = 0;
    fill();
    for (i = 0; i < SIZE; i++) {
        BeginPPR(1);
        for (j = 0; j < SIZE; j++)
            product[i][j] = entry(i, j);
        EndPPR(1);
    }
    for (i = 0; i < SIZE; i++)
        trace += product[i][i];
    print(trace);
    putchar('\n');
    return 0;
}

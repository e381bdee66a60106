/* A sieve: strikes out the multiples of each square above 1, and so leaves the numbers that no such
   square divides.

       ./bop seq examples/sieve.c

   The numbers below 32,768 are eight stretches of 4,096, each of which is sieved in a region and is
   a page of its own. Prints how many numbers are left of each stretch, and then of all. */
#include <stdio.h>
#include "bop.h"
#define STRETCHES 8
#define LENGTH 4096

char struck[STRETCHES][LENGTH];

void print(int n)
{
    if (n > 9)
        print(n / 10);
    putchar('0' + n % 10);
}

void sieve(int stretch)
{
    int from = stretch * LENGTH;
    int root, square, n;
    for (root = 2; root * root < from + LENGTH; root++) {
        square = root * root;
        for (n = (from + square - 1) / square * square; n < from + LENGTH; n += square)
            struck[stretch][n - from] = 1;
    }
}

int count_left(int stretch)
{
    int i;
    int left = 0;
    for (i = 0; i < LENGTH; i++)
        left += !struck[stretch][i];
    return left;
}

int main(void)
{
    int stretch, left;
    int sum = 0;
    for (stretch = 0; stretch < STRETCHES; stretch++) {
        BeginPPR(1);
        sieve(stretch);
        EndPPR(1);
    }
    for (stretch = 0; stretch < STRETCHES; stretch++) {
        left = count_left(stretch);
        sum += left;
        print(left);
        putchar(' ');
    }
    print(sum);
    putchar('\n');
    return 0;
}

/* In how many ways can eight queens be placed on a chessboard so that none attacks another?

       ./bop seq examples/queens.c

   The queen of the first row stands in each of the eight columns in turn, and the ways to place the
   others are counted in a region, whose count is on a page of its own. Prints these eight counts, and
   then their sum. A set of columns is a number that has a bit for each column. */
#include <stdio.h>
#include "bop.h"
#define SIZE 8
#define ALL 255
#define PAGE 1024

int ways[SIZE][PAGE];

void print(int n)
{
    if (n > 9)
        print(n / 10);
    putchar('0' + n % 10);
}

/* The ways to fill the rows from this one on, where these columns are taken, and of this row those that
   a queen above it attacks aslant from the right and from the left. */
int count(int row, int taken, int from_right, int from_left)
{
    int safe, queen;
    int sum = 0;
    if (row == SIZE)
        return 1;
    safe = ALL & ~(taken | from_right | from_left);
    while (safe != 0) {
        queen = safe & -safe;
        safe ^= queen;
        sum += count(row + 1, taken | queen, (from_right | queen) << 1, (from_left | queen) >> 1);
    }
    return sum;
}

int main(void)
{
    int column, queen;
    int sum = 0;
    for (column = 0; column < SIZE; column++) {
        BeginPPR(1);
        queen = 1 << column;
        ways[column][0] = count(1, queen, queen << 1, queen >> 1);
        EndPPR(1);
    }
    for (column = 0; column < SIZE; column++) {
        sum += ways[column][0];
        print(ways[column][0]);
        putchar(' ');
    }
    print(sum);
    putchar('\n');
    return 0;
}

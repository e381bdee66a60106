/* Sorts the numbers of the input, at most 4,096, and prints them one to a line.

       ./bop seq examples/sort.c <examples/sort.in

   The numbers are dealt out to four parts, each part is sorted by a heap in a region, and the sorted
   parts are merged. A part is a page of its own: no region needs what another writes. */
#include <stdio.h>
#include "bop.h"
#define PARTS 4
#define PART 1024

int part[PARTS][PART];
int length[PARTS];
int next[PARTS];

/* Reads a number into *number, or returns 0 where no further one comes. */
int read_number(int *number)
{
    int c = getchar();
    int negative = 0;
    unsigned value = 0;
    while (c == ' ' || c == '\t' || c == '\n' || c == '\r')
        c = getchar();
    if (c == '-') {
        negative = 1;
        c = getchar();
    }
    if (c < '0' || c > '9')
        return 0;
    while (c >= '0' && c <= '9') {
        value = value * 10 + (c - '0');
        c = getchar();
    }
    *number = negative ? -value : value;
    return 1;
}

void print_digits(unsigned n)
{
    if (n > 9)
        print_digits(n / 10);
    putchar('0' + n % 10);
}

void print_number(int n)
{
    unsigned magnitude = n;
    if (n < 0) {
        putchar('-');
        magnitude = -magnitude;
    }
    print_digits(magnitude);
    putchar('\n');
}

/* Lets the number at the root of a heap sink to where no number below it is larger. */
void sink(int *heap, int root, int size)
{
    int child;
    int sinking = heap[root];
    while ((child = 2 * root + 1) < size) {
        if (child + 1 < size && heap[child + 1] > heap[child])
            child++;
        if (heap[child] <= sinking)
            break;
        heap[root] = heap[child];
        root = child;
    }
    heap[root] = sinking;
}

void sort(int *numbers, int size)
{
    int i, largest;
    for (i = size / 2 - 1; i >= 0; i--)
        sink(numbers, i, size);
    for (i = size - 1; i > 0; i--) {
        largest = numbers[0];
        numbers[0] = numbers[i];
        sink(numbers, 0, i);
        numbers[i] = largest;
    }
}

/* The part whose next number is the smallest, or -1 where all are at their ends. */
int smallest(void)
{
    int k;
    int best = -1;
    for (k = 0; k < PARTS; k++)
        if (next[k] < length[k] && (best < 0 || part[k][next[k]] < part[best][next[best]]))
            best = k;
    return best;
}

int main(void)
{
    int number, k;
    int count = 0;
    while (count < PARTS * PART && read_number(&number)) {
        k = count % PARTS;
        part[k][length[k]++] = number;
        count++;
    }
    for (k = 0; k < PARTS; k++) {
        BeginPPR(1);
        sort(part[k], length[k]);
        EndPPR(1);
    }
    while ((k = smallest()) >= 0)
        print_number(part[k][next[k]++]);
    return 0;
}

/* A histogram of the letters of the input: how often each comes, without regard to case, with a bar of
   at most 50 columns.

       ./bop seq examples/histogram.c <examples/histogram.in

   Four parts of the text are counted, each in a region and on a page of its own, and the counts are
   added. Of the input the first 65,536 bytes are looked at. */
#include <stdio.h>
#include "bop.h"
#define PARTS 4
#define PAGE 1024
#define MOST 65536
#define WIDTH 50

int counts[PARTS][PAGE];
int total[256];
char text[MOST];
int size;

void read_text(void)
{
    int c;
    while (size < MOST && (c = getchar()) != EOF)
        text[size++] = c;
}

int lower(int c)
{
    return c >= 'A' && c <= 'Z' ? c - 'A' + 'a' : c;
}

void count_part(int part)
{
    int i;
    int end = size * (part + 1) / PARTS;
    for (i = size * part / PARTS; i < end; i++)
        counts[part][lower(text[i])]++;
}

void add_part(int part)
{
    int c;
    for (c = 'a'; c <= 'z'; c++)
        total[c] += counts[part][c];
}

int find_most(void)
{
    int c;
    int most = 0;
    for (c = 'a'; c <= 'z'; c++)
        if (total[c] > most)
            most = total[c];
    return most;
}

/* Prints a number at the right end of so many columns. */
void print_in(int columns, int n)
{
    if (n > 9)
        print_in(columns - 1, n / 10);
    else
        while (--columns > 0)
            putchar(' ');
    putchar('0' + n % 10);
}

void print_bar(int c, int most)
{
    int i;
    int bar = total[c] * WIDTH / most;
    putchar(c);
    print_in(6, total[c]);
    putchar(' ');
    for (i = 0; i < bar; i++)
        putchar('#');
    putchar('\n');
}

int main(void)
{
    int part, c, most;
    read_text();
    for (part = 0; part < PARTS; part++) {
        BeginPPR(1);
        count_part(part);
        EndPPR(1);
    }
    for (part = 0; part < PARTS; part++)
        add_part(part);
    most = find_most();
    for (c = 'a'; c <= 'z'; c++)
        if (total[c] > 0)
            print_bar(c, most);
    return 0;
}

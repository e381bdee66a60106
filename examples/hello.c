/* Prints a greeting. The language has no strings, so a text is put byte by byte.

       ./bop seq examples/hello.c */
#include <stdio.h>

int main(void)
{
    putchar('H');
    putchar('e');
    putchar('l');
    putchar('l');
    putchar('o');
    putchar(',');
    putchar(' ');
    putchar('w');
    putchar('o');
    putchar('r');
    putchar('l');
    putchar('d');
    putchar('!');
    return 0;
}

/* Big numbers: prints factorials and powers with all their digits.

       echo '2^100' | ./bop seq examples/bignum.c

   Each line of the input is a number and `!`, or two numbers with `^` between them. A number of the input
   is at most 99,999, and a result has at most 1,600 digits; a line that is otherwise gives `?`.
   A big number is a list of limbs of four digits, the lowest first. */
#include <stdio.h>
#define LIMBS 400
#define BASE 10000

int limb[LIMBS];
int length;
int is_full;

/* The byte that is looked at. */
int c;

void set_to_one(void)
{
    limb[0] = 1;
    length = 1;
    is_full = 0;
}

/* Multiplies the big number by a number of at most 99,999. */
void multiply(int by)
{
    int i;
    int carry = 0;
    for (i = 0; i < length; i++) {
        carry += limb[i] * by;
        limb[i] = carry % BASE;
        carry /= BASE;
    }
    while (carry > 0 && length < LIMBS) {
        limb[length++] = carry % BASE;
        carry /= BASE;
    }
    is_full = carry > 0;
}

void factorial(int n)
{
    int i;
    set_to_one();
    for (i = 2; i <= n && !is_full; i++)
        multiply(i);
}

void power(int base, int exponent)
{
    int i;
    set_to_one();
    for (i = 0; i < exponent && !is_full; i++)
        multiply(base);
}

/* Prints the digits of a limb; those of all but the highest are filled up with zeros. */
void print_limb(int n, int digits)
{
    if (n > 9 || digits > 1)
        print_limb(n / 10, digits - 1);
    putchar('0' + n % 10);
}

void print_result(void)
{
    int i = length - 1;
    while (i > 0 && limb[i] == 0)
        i--;
    print_limb(limb[i], 1);
    while (--i >= 0)
        print_limb(limb[i], 4);
}

int read_number(void)
{
    int value = 0;
    while (c >= '0' && c <= '9' && value < BASE) {
        value = value * 10 + (c - '0');
        c = getchar();
    }
    return value;
}

/* Computes what the line asks for, and returns whether it asks for anything. */
int compute_line(void)
{
    int n = read_number();
    int operator = c;
    if (operator != '!' && operator != '^')
        return 0;
    c = getchar();
    if (operator == '!')
        factorial(n);
    else
        power(n, read_number());
    return c == '\n' || c == EOF;
}

int main(void)
{
    c = getchar();
    while (c != EOF) {
        if (compute_line() && !is_full)
            print_result();
        else
            putchar('?');
        putchar('\n');
        while (c != '\n' && c != EOF)
            c = getchar();
        c = getchar();
    }
    return 0;
}

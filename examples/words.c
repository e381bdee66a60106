/* Counts the words of the input: runs of bytes other than blanks, tabs and line ends.

       echo 'one two three' | ./bop seq examples/words.c

   It has no region, so it shows the plain language: input to its end, a loop, output. */
#include <stdio.h>

void print(int n)
{
    if (n > 9)
        print(n / 10);
    putchar('0' + n % 10);
}

int is_space(int c)
{
    return c == ' ' || c == '\t' || c == '\n' || c == '\r';
}

int main(void)
{
    int c;
    int inside = 0;
    int words = 0;
    while ((c = getchar()) != EOF) {
        if (is_space(c)) {
            inside = 0;
        } else if (!inside) {
            inside = 1;
            words++;
        }
    }
    print(words);
    putchar('\n');
    return 0;
}

/* A run-length coder: each run of equal bytes becomes two bytes, its length and the byte.

       ./bop seq examples/runs.c <examples/runs.in

   Prints the runs of the input as length and byte, in lines as the input has them, and then how many
   bytes the input has and how many its code. The code is decoded again: the exit value is 0 where that
   gives the input, and 1 otherwise. Of the input the first 16,384 bytes are coded. */
#include <stdio.h>
#define MOST 16384
#define CODE 32768
#define LONGEST 255

char text[MOST];
char code[CODE];
char decoded[MOST];

void print(int n)
{
    if (n > 9)
        print(n / 10);
    putchar('0' + n % 10);
}

int read_text(void)
{
    int c;
    int size = 0;
    while (size < MOST && (c = getchar()) != EOF)
        text[size++] = c;
    return size;
}

/* How long the run is that begins here. */
int measure(int from, int size)
{
    int end = from + 1;
    while (end < size && end - from < LONGEST && text[end] == text[from])
        end++;
    return end - from;
}

/* Codes so many bytes of the text, and returns the length of the code. */
int encode(int size)
{
    int run;
    int from = 0;
    int length = 0;
    while (from < size) {
        run = measure(from, size);
        code[length++] = run;
        code[length++] = text[from];
        from += run;
    }
    return length;
}

/* Decodes so many bytes of the code, and returns the size of the text. */
int decode(int length)
{
    int i, run;
    int size = 0;
    for (i = 0; i < length; i += 2)
        for (run = 0; run < code[i]; run++)
            decoded[size++] = code[i + 1];
    return size;
}

int is_same(int size)
{
    int i;
    for (i = 0; i < size; i++)
        if (decoded[i] != text[i])
            return 0;
    return 1;
}

void print_code(int length)
{
    int i;
    for (i = 0; i < length; i += 2) {
        if (code[i + 1] != '\n')
            print(code[i]);
        putchar(code[i + 1]);
    }
}

int main(void)
{
    int size = read_text();
    int length = encode(size);
    print_code(length);
    print(size);
    putchar(' ');
    print(length);
    putchar('\n');
    return decode(length) == size && is_same(size) ? 0 : 1;
}

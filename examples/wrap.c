/* Fills the lines of a text: puts as many words on a line as fit into 60 columns, and keeps the blank
   lines between paragraphs, one for each gap.

       ./bop seq examples/wrap.c <examples/wrap.in

   A word of more than 256 bytes is broken. A filter goes through its input in order, so nothing is
   marked as a region. */
#include <stdio.h>
#define WIDTH 60
#define LONGEST 256

char word[LONGEST];
int length;
int column;
int gap;

int is_space(int c)
{
    return c == ' ' || c == '\t' || c == '\n' || c == '\r';
}

/* What separates the next word from what was put before it. */
void put_separator(void)
{
    if (column == 0)
        return;
    if (!gap && column + 1 + length <= WIDTH) {
        putchar(' ');
        column++;
        return;
    }
    putchar('\n');
    if (gap)
        putchar('\n');
    column = 0;
}

void put_word(void)
{
    int i;
    if (length == 0)
        return;
    put_separator();
    for (i = 0; i < length; i++)
        putchar(word[i]);
    column += length;
    length = 0;
    gap = 0;
}

int main(void)
{
    int c;
    int line_ends = 0;
    while ((c = getchar()) != EOF) {
        if (is_space(c)) {
            put_word();
            if (c == '\n' && ++line_ends == 2)
                gap = 1;
        } else {
            line_ends = 0;
            if (length == LONGEST)
                put_word();
            word[length++] = c;
        }
    }
    put_word();
    if (column > 0)
        putchar('\n');
    return 0;
}

/* Evaluates the expressions of the input, one to a line, by recursive descent:

       sum     = product { ("+" | "-") product }
       product = factor { ("*" | "/" | "%") factor }
       factor  = number | "-" factor | "(" sum ")"

       echo '(1 + 2) * 3' | ./bop seq examples/calculator.c

   Prints the value of each line, or what is wrong and in which column. The exit value is 1 where any
   line was wrong. Each operation is tested before it is done, so no input comes to undefined behaviour. */
#include <stdio.h>
#define LARGEST 2147483647

char syntax_error[13] = {'s', 'y', 'n', 't', 'a', 'x', ' ', 'e', 'r', 'r', 'o', 'r'};
char too_large[10] = {'t', 'o', 'o', ' ', 'l', 'a', 'r', 'g', 'e'};
char by_zero[17] = {'d', 'i', 'v', 'i', 's', 'i', 'o', 'n', ' ', 'b', 'y', ' ', 'z', 'e', 'r', 'o'};
char in_column[12] = {' ', 'i', 'n', ' ', 'c', 'o', 'l', 'u', 'm', 'n', ' '};

/* The byte that is looked at, and its column. */
int c;
int column;

/* The first thing that is wrong with the line, and its column. */
char *fault;
int fault_column;

int sum(void);

void advance(void)
{
    c = getchar();
    column++;
}

void skip_blanks(void)
{
    while (c == ' ' || c == '\t')
        advance();
}

int is_at_end(void)
{
    return c == '\n' || c == EOF;
}

int fail(char *what, int where)
{
    if (fault == 0) {
        fault = what;
        fault_column = where;
    }
    return 0;
}

int magnitude(int n)
{
    return n < 0 ? -n : n;
}

int add(int a, int b, int where)
{
    if (b > 0 ? a > LARGEST - b : a < -LARGEST - b)
        return fail(too_large, where);
    return a + b;
}

int multiply(int a, int b, int where)
{
    if (a != 0 && magnitude(b) > LARGEST / magnitude(a))
        return fail(too_large, where);
    return a * b;
}

int divide(int operator, int a, int b, int where)
{
    if (b == 0)
        return fail(by_zero, where);
    return operator == '/' ? a / b : a % b;
}

int number(void)
{
    int where = column;
    int value = 0;
    while (c >= '0' && c <= '9') {
        value = add(multiply(value, 10, where), c - '0', where);
        advance();
    }
    return value;
}

int factor(void)
{
    int value;
    skip_blanks();
    if (c >= '0' && c <= '9')
        return number();
    if (c == '-') {
        advance();
        return -factor();
    }
    if (c != '(')
        return fail(syntax_error, column);
    advance();
    value = sum();
    if (c != ')')
        return fail(syntax_error, column);
    advance();
    return value;
}

int product(void)
{
    int operator, where, right;
    int left = factor();
    skip_blanks();
    while (c == '*' || c == '/' || c == '%') {
        operator = c;
        where = column;
        advance();
        right = factor();
        left = operator == '*' ? multiply(left, right, where) : divide(operator, left, right, where);
        skip_blanks();
    }
    return left;
}

int sum(void)
{
    int operator, where, right;
    int left = product();
    while (c == '+' || c == '-') {
        operator = c;
        where = column;
        advance();
        right = product();
        left = add(left, operator == '+' ? right : -right, where);
    }
    return left;
}

void print_text(char *text)
{
    while (*text)
        putchar(*text++);
}

void print(int n)
{
    if (n < 0)
        putchar('-');
    if (n > 9 || n < -9)
        print(magnitude(n) / 10);
    putchar('0' + magnitude(n) % 10);
}

/* Evaluates a line and prints its value; returns 1 where it is wrong. */
int answer_line(void)
{
    int value = sum();
    if (!is_at_end())
        fail(syntax_error, column);
    while (!is_at_end())
        advance();
    if (fault == 0) {
        print(value);
    } else {
        print_text(fault);
        print_text(in_column);
        print(fault_column);
    }
    putchar('\n');
    return fault != 0;
}

int main(void)
{
    int wrong = 0;
    advance();
    while (c != EOF) {
        skip_blanks();
        if (!is_at_end())
            wrong |= answer_line();
        fault = 0;
        column = 0;
        if (c == '\n')
            advance();
    }
    return wrong;
}

/* Conway's game of life, twelve generations of a board of 16 rows and 32 columns whose edges meet.

       ./bop seq examples/life.c <examples/life.in

   The input is the board, a line for each row, with `#` for each living cell; the output is the board
   afterwards. Each row of a new generation is a region. It only reads the old generation, and a row has
   4,096 bytes, and so a page of its own. */
#include <stdio.h>
#include "bop.h"
#define ROWS 16
#define COLUMNS 32
#define PAGE 4096
#define GENERATIONS 12

char board[2][ROWS][PAGE];

void read_board(void)
{
    int c;
    int row = 0;
    int column = 0;
    while (row < ROWS && (c = getchar()) != EOF) {
        if (c == '\n') {
            row++;
            column = 0;
        } else if (column < COLUMNS) {
            board[0][row][column++] = c == '#';
        }
    }
}

void print_board(int now)
{
    int row, column;
    for (row = 0; row < ROWS; row++) {
        for (column = 0; column < COLUMNS; column++)
            putchar(board[now][row][column] ? '#' : '.');
        putchar('\n');
    }
}

int is_alive(int now, int row, int column)
{
    return board[now][(row + ROWS) % ROWS][(column + COLUMNS) % COLUMNS];
}

int count_neighbours(int now, int row, int column)
{
    int i, j;
    int count = -is_alive(now, row, column);
    for (i = -1; i <= 1; i++)
        for (j = -1; j <= 1; j++)
            count += is_alive(now, row + i, column + j);
    return count;
}

void evolve_row(int now, int row)
{
    int column, count;
    for (column = 0; column < COLUMNS; column++) {
        count = count_neighbours(now, row, column);
        board[1 - now][row][column] = count == 3 || (count == 2 && is_alive(now, row, column));
    }
}

int main(void)
{
    int generation, row;
    int now = 0;
    read_board();
    for (generation = 0; generation < GENERATIONS; generation++) {
        for (row = 0; row < ROWS; row++) {
            BeginPPR(1);
            evolve_row(now, row);
            EndPPR(1);
        }
        now = 1 - now;
    }
    print_board(now);
    return 0;
}

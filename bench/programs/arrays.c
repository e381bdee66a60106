/* A loop over two arrays of 1,000 numbers, in so many ROUNDS. */
int a[1000];
int b[1000];

int main(void)
{
    int round, i;
    for (i = 0; i < 1000; i++)
        b[i] = 2 * i;
    for (round = 0; round < ROUNDS; round++)
        for (i = 0; i < 1000; i++)
            a[i] = (a[i] + b[i] * 3) % 1000;
    return 0;
}

/* The sieve of Eratosthenes below 100,000, in so many ROUNDS. */
char composite[100000];

int main(void)
{
    int round, i, j;
    for (round = 0; round < ROUNDS; round++) {
        for (i = 0; i < 100000; i++)
            composite[i] = 0;
        for (i = 2; i < 100000; i++)
            if (!composite[i])
                for (j = i + i; j < 100000; j += i)
                    composite[j] = 1;
    }
    return 0;
}

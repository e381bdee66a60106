/* A recursion of 8,001 calls, in so many ROUNDS. A frame takes 32 bytes of the stack's 262,144. */
int depth(int n)
{
    if (n == 0)
        return 0;
    return depth(n - 1) + 1;
}

int main(void)
{
    int round;
    for (round = 0; round < ROUNDS; round++)
        depth(8000);
    return 0;
}

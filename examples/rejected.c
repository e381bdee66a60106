/* bop refuses this text on purpose: the region begins in the loop's block and ends after it, and both
   markers have to be statements of one block. `bop check` names the earlier one: marker 11 9.
   Put the EndPPR before the closing brace of the loop to mend it. */
#include "bop.h"

int main(void)
{
    int i;
    int sum = 0;
    for (i = 0; i < 3; i++) {
        BeginPPR(2);
        sum += i;
    }
    EndPPR(2);
    putchar('0' + sum);
    return 0;
}

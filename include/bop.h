/* With this header a text for bop is also a C program:

       gcc -std=c11 -funsigned-char -I include -include bop.h PROGRAM.c

   The markers of regions and the classes of globals then do nothing. */
#ifndef BOP_H
#define BOP_H

#define BOP_CHECKED
#define BOP_PRIVATE

#define BeginPPR(region) ((void)0)
#define EndPPR(region) ((void)0)
#define Post(channel, from, bytes) ((void)0)
#define Wait(channel) ((void)0)

#ifndef EOF
#define EOF (-1)
#endif

int getchar(void);
int putchar(int byte);

#endif

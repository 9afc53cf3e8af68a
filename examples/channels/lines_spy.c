/* A spy that primes and probes: it loads the line of each secret, rests until its slot is
   over, and takes the time of loading each again. The line that the sender's secret
   names takes longer, if the sender's loads put it out of a cache. */
#include "lines.h"

#define TURNS 350 /* longer than a slot */

static page own __attribute__((aligned(4096)));

int main(void)
{
    for (int guess = 0; guess < SECRETS; guess++)
        (void)own[FIRST + guess][0];
    rest(TURNS);
    (void)own[0][0]; /* so that the page is looked up */
    for (int guess = 0; guess < SECRETS; guess++) {
        tp_cycle();
        (void)own[FIRST + guess][0];
        tp_cycle();
    }
    return 0;
}

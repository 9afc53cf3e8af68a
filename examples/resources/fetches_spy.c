/* A spy that runs code in the line of each secret, rests until its slot is over, and takes
   the time of running each again. */
#include "fetches.h"

#define TURNS 350 /* longer than a slot */

int main(void)
{
    for (int guess = 0; guess < SECRETS; guess++)
        fetch(0, FIRST + guess);
    rest(TURNS);
    for (int guess = 0; guess < SECRETS; guess++) {
        tp_cycle();
        fetch(0, FIRST + guess);
        tp_cycle();
    }
    return 0;
}

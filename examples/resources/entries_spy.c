/* A spy that loads from an address of each secret, rests until its slot is over, and takes
   the time of loading from each again. It is one line of memory, so what differs is how
   long the page takes to be looked up. */
#include "entries.h"

#define TURNS 1700 /* longer than a slot */

int main(void)
{
    for (uint32_t guess = 0; guess <= SECRETS; guess++)
        map_too(1 + guess, address_of(0, guess));
    for (uint32_t guess = 0; guess < SECRETS; guess++)
        load(address_of(0, guess));
    rest(TURNS);
    load(address_of(0, SECRETS)); /* so that the line is there */
    for (uint32_t guess = 0; guess < SECRETS; guess++) {
        tp_cycle();
        load(address_of(0, guess));
        tp_cycle();
    }
    return 0;
}

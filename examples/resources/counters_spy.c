/* A spy that rests until its slot is over, and takes the time of eight branches whose
   counters are the sender's: none is taken, so one that is guessed to be takes longer. */
#include "sites.h"

#define TURNS 350 /* longer than a slot */

SITES_IN(1, "    csrr t0, cycle\n"
            "    bnez zero, .+4\n"
            "    csrr t0, cycle\n"
            "    nop\n");

int main(void)
{
    rest(TURNS);
    run_sites(0);
    return 0;
}

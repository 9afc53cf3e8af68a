/* A spy that comes to eight jumps, whose places in the target buffer are those of the
   sender's branches, rests until its slot is over, and comes to them again: one whose place
   knows another target by then takes longer. Its readings are of both times. */
#include "sites.h"

#define TURNS 350 /* longer than a slot */

SITES_IN(2, "    csrr t0, cycle\n"
            "    j .+4\n"
            "    csrr t0, cycle\n"
            "    nop\n");

int main(void)
{
    run_sites(0);
    rest(TURNS);
    run_sites(0);
    return 0;
}

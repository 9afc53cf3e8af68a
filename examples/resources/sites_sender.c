/* A sender that comes to eight branches once, of which one alone is taken: that of its
   secret. So the branch's counter, the place of its target, and the history of branches are
   as the secret says. Then it ends. */
#include "sites.h"

volatile uint32_t secret = 0;

SITES_IN(1, "    andi t0, a0, 1 << \\site\n"
            "    bnez t0, .+4\n"
            "    nop\n"
            "    nop\n");

int main(void)
{
    run_sites(1u << secret);
    return 0;
}

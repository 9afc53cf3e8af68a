/* A sender that runs code in the line of its secret, in each of four pages, again and again.
   They fill the line's set of the first-level instruction cache, which has two ways. */
#include "fetches.h"

volatile uint32_t secret = 0;

int main(void)
{
    for (;;)
        for (int number = 0; number < CODE_PAGES; number++)
            fetch(number, FIRST + secret);
}

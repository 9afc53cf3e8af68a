/* A sender that loads the line of its secret in each of four pages, again and again, as a
   look-up in a table would. They fill the line's set of the first-level data cache, which
   has two ways, and of the second level, which has four. */
#include "lines.h"

#define PAGES 4

volatile uint32_t secret = 0;
static page pages[PAGES] __attribute__((aligned(4096)));

int main(void)
{
    for (;;)
        for (int number = 0; number < PAGES; number++)
            (void)pages[number][FIRST + secret][0];
}

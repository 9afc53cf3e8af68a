/* A sender that stores into four lines for each one of its secret, again and again: at
   its slot's end so many lines are dirty, and each must be written back. */
#include "channel.h"

volatile uint32_t secret = 0;
static page own __attribute__((aligned(4096)));

int main(void)
{
    for (;;)
        for (uint32_t number = 0; number < 4 * secret; number++)
            own[number][0] = number;
}

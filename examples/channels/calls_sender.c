/* A sender that makes the kernel call of each bit that is set in its secret. */
#include "calls.h"

volatile uint32_t secret = 0;

int main(void)
{
    for (int bit = 0; bit < BITS; bit++)
        if (secret >> bit & 1)
            call_of(bit);
    return 0;
}

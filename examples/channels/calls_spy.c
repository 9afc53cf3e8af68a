/* A spy that takes the time of each bit's kernel call. One that the sender has made takes
   less, if lines that the kernel touched for it are in the second level, and are the
   same ones. */
#include "calls.h"

int main(void)
{
    for (int bit = 0; bit < BITS; bit++) {
        tp_cycle();
        call_of(bit);
        tp_cycle();
    }
    return 0;
}

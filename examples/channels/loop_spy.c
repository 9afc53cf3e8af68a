/* A spy that takes the time of a loop, some times. That is longer by what the kernel
   takes from it meanwhile: the time between two of its slots, or interrupts of others. */
#include "channel.h"

volatile uint32_t turns = 0;
volatile uint32_t times = 0;

int main(void)
{
    for (uint32_t left = times; left; left--) {
        tp_cycle();
        rest(turns);
        tp_cycle();
    }
    return 0;
}

/* A sender that takes as many words of a box as its secret says, in each of its slots, with
   the time that each takes; what it leaves is replaced by what comes in next. */
#include "mail.h"

volatile uint32_t secret = 0;

int main(void)
{
    for (;;) {
        for (uint32_t left = secret; left; left--) {
            tp_cycle();
            tp_recv(BOX);
            tp_cycle();
        }
        rest(TURNS_OF_SENDER);
    }
}

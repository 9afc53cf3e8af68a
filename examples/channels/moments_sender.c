/* A sender that does nothing but wait for its interrupts. Its secret is how many of them
   come: its moments, in the image. */
#include "channel.h"

int main(void)
{
    while (tp_wait(0).error == TP_OK)
        ;
    return 1;
}

/* A spy that puts words into a box until it is full, in each of its slots, and takes the
   time of each call. Were the box full by what nobody has taken, that would tell. */
#include "mail.h"

#define ROUNDS 5

int main(void)
{
    uint32_t sent = 0;

    for (int round = 0; round < ROUNDS; round++) {
        enum tp_error error;
        do {
            tp_cycle();
            error = tp_send(BOX, sent++);
            tp_cycle();
        } while (error == TP_OK);
        rest(TURNS_OF_SPY);
    }
    return sent;
}

/* A store that signs numbers with a key that it keeps. How much it writes, and so the
   time that it takes and what it leaves in the caches, depends on the key's digits: all
   that a store should not do. Its own readings, a clock before and after, show it.
   tp-image --set store.key=VALUE puts a key there. */
#include "tp.h"

#define LINE_WORDS 16
#define DIGITS 8

volatile uint32_t key = 0;
static volatile uint32_t scratch[16 * 4 * LINE_WORDS];

static uint32_t sign(uint32_t number)
{
    uint32_t tag = number;
    for (unsigned place = 0; place < DIGITS; place++) {
        uint32_t digit = key >> (4 * place) & 15;
        for (uint32_t line = 0; line < 4 * (digit + 1); line++) {
            tag = tag << 5 ^ tag >> 27 ^ digit;
            scratch[line * LINE_WORDS] = tag;
        }
    }
    return tag;
}

int main(void)
{
    for (uint32_t number = 1;; number++) {
        tp_cycle();
        uint32_t tag = sign(number);
        tp_cycle();
        tp_put((char)tag);
    }
}

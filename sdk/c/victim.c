/* A victim whose table look-ups depend on its key, as those of many ciphers do: each digit
   of a number, with the key's digit beside it, chooses one of sixteen lines. In a slot's
   first look-ups a line that an earlier digit chose is in the cache, and the others are
   not: so its own readings, a clock before and after each look-up, show which digits of
   the key are alike. tp-image --set victim.key=VALUE puts a key there. */
#include "tp.h"

#define LINES 16
#define LINE_WORDS 16
#define DIGITS 8
#define NUMBERS 12
#define REST 9600 /* cycles: with the look-ups, a slot and more */

volatile uint32_t key = 0;
static volatile uint32_t table[LINES * LINE_WORDS] __attribute__((aligned(4096)));

static uint32_t sign(uint32_t number)
{
    uint32_t tag = 0;
    for (unsigned place = 0; place < DIGITS; place++) {
        uint32_t chosen = ((number ^ key) >> (4 * place) & 15) * LINE_WORDS;
        tp_cycle();
        tag += table[chosen];
        tp_cycle();
    }
    return tag;
}

int main(void)
{
    for (uint32_t number = 0; number < NUMBERS; number++) {
        tp_put((char)sign(number * 0x11111111u));
        tp_rest(REST);
    }
    return 0;
}

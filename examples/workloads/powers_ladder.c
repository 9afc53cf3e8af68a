/* A victim that takes Montgomery's ladder: a product and a square for each bit of its
   exponent, of two numbers that are swapped by a mask. What it loads and how long it takes
   is the same for every exponent. */
#include "powers.h"

static void swap_where(uint32_t is_set, number *low, number *high)
{
    for (int place = 0; place < WORDS; place++) {
        uint32_t change = (low->word[place] ^ high->word[place]) & -is_set;
        low->word[place] ^= change;
        high->word[place] ^= change;
    }
}

static void raise(number *power, const number *to_raise, uint32_t to)
{
    number next = *to_raise;
    for (int bit = BITS - 1; bit >= 0; bit--) {
        swap_where(to >> bit & 1, power, &next);
        multiply(&next, power, &next);
        multiply(power, power, power);
        swap_where(to >> bit & 1, power, &next);
    }
}

/* A victim that squares, and multiplies where its exponent has a bit: in a slot it loads the
   base, or it doesn't, as the bits say, and the more of them are set the longer it takes. */
#include "powers.h"

static void raise(number *power, const number *to_raise, uint32_t to)
{
    for (int bit = BITS - 1; bit >= 0; bit--) {
        multiply(power, power, power);
        if (to >> bit & 1)
            multiply(power, power, to_raise);
    }
}

/* Powers modulo a prime, by squaring, printed in decimal: each step is a product and a
   remainder, and so is each digit. A clock before and after each power tells how long it
   took. For rv32im the products are instructions, for rv32i calls of the compiler's
   library, which adds and subtracts bit by bit. */
#include <stdio.h>

#include "tp.h"

unsigned prime = 65521; /* below 2^16, so that no product passes 32 bits */
unsigned exponent = 1000003;

static unsigned power(unsigned base)
{
    unsigned result = 1;
    for (unsigned left = exponent; left; left >>= 1) {
        if (left & 1)
            result = result * base % prime;
        base = base * base % prime;
    }
    return result;
}

int main(void)
{
    for (unsigned base = 2; base < 6; base++) {
        tp_cycle();
        unsigned found = power(base);
        tp_cycle();
        printf("%u^%u mod %u = %u\n", base, exponent, prime, found);
    }
    return 0;
}

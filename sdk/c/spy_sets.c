/* A spy that primes and probes the sixteen sets of its first-level data cache. It fills
   both ways of each set, rests until its slot is over, and takes the time of loading them
   again, set by set: a set that another one's load went to would take longer. Its readings
   are pairs of clocks, sixteen pairs a look. */
#include "tp.h"

#define SETS 16
#define WAYS 2
#define LINE_WORDS 16
#define LOOKS 8
#define REST 12000 /* cycles: longer than a slot */

static volatile uint32_t lines[WAYS][SETS][LINE_WORDS] __attribute__((aligned(4096)));

static void load(int set)
{
    for (int way = 0; way < WAYS; way++)
        (void)lines[way][set][0];
}

int main(void)
{
    for (int look = 0; look < LOOKS; look++) {
        for (int set = 0; set < SETS; set++)
            load(set);
        tp_rest(REST);
        for (int set = 0; set < SETS; set++) {
            tp_cycle();
            load(set);
            tp_cycle();
        }
    }
    return 0;
}

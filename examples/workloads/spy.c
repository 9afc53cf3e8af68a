/* A spy for every workload: it looks for all that a neighbour can leave behind. It fills
   sets of its caches, from `first` on, and rests until others have run. Then it takes three
   kinds of times, a clock before and after each: how long it rested, which tells when its
   slot began; loading each set again; and a kernel call. */
#include "../channels/channel.h"

#define LINES 4 /* that it loads of each set: the ways of the second level */

volatile uint32_t first = 0; /* a set, 0 to 63 */
volatile uint32_t sets = PAGE_LINES;
volatile uint32_t looks = 1;
volatile uint32_t turns = 0; /* of its rest, which is longer than a slot */

static page pages[LINES] __attribute__((aligned(4096)));

static void prime(void)
{
    for (int number = 0; number < LINES; number++)
        for (uint32_t set = first; set < first + sets; set++)
            (void)pages[number][set][0];
}

/* Loads the lines of a set, the newest first: so those that are there are found before one
   that isn't puts them out. */
static void probe(uint32_t set)
{
    for (int number = LINES - 1; number >= 0; number--)
        (void)pages[number][set][0];
}

int main(void)
{
    for (uint32_t left = looks; left; left--) {
        prime();
        tp_cycle();
        rest(turns);
        tp_cycle();
        for (uint32_t set = first; set < first + sets; set++) {
            tp_cycle();
            probe(set);
            tp_cycle();
        }
        tp_cycle();
        tp_poll(TP_SLOTS - 1);
        tp_cycle();
    }
    return 0;
}

/* A spy that probes its caches: it loads a word of each line of a page and reads the
   clock before and after, rests until its slot is over, and looks again. A line that a
   neighbour put out of a cache would take longer. Its readings are pairs of clocks. */
#include "tp.h"

#define LINES 16
#define LINE_WORDS 16
#define LOOKS 8
#define REST 12000 /* cycles: longer than a slot */

static volatile uint32_t page[LINES * LINE_WORDS] __attribute__((aligned(4096)));

int main(void)
{
    for (int look = 0; look < LOOKS; look++) {
        for (int line = 0; line < LINES; line++) {
            tp_cycle();
            (void)page[line * LINE_WORDS];
            tp_cycle();
        }
        tp_rest(REST);
    }
    return 0;
}

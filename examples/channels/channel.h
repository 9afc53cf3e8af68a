/* What senders and spies of the gallery share. */
#ifndef CHANNEL_H
#define CHANNEL_H

#include "tp.h"

#define LINE_WORDS 16
#define PAGE_LINES 64

typedef volatile uint32_t line[LINE_WORDS];
typedef line page[PAGE_LINES];

/* Goes so many times, at least once, round a loop of six cycles. */
static inline void rest(uint32_t turns)
{
    do
        __asm__ volatile("");
    while (--turns);
}

#endif

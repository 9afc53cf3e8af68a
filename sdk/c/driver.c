/* A driver of two threads. The first waits for the device's interrupts, and hands each
   on by the domain's other line; the second waits for that line, and prints a letter for
   each. After four of them the second ends the domain. */
#include "tp.h"

#define DEVICE 0 /* the slots of the two lines: `caps` of driver.toml */
#define HANDED_ON 1
#define INTERRUPTS 4

static uint8_t stack[512] __attribute__((aligned(16)));

static void print_letters(uint32_t first)
{
    for (uint32_t letter = first; letter < first + INTERRUPTS; letter++) {
        if (tp_wait(HANDED_ON).error != TP_OK)
            tp_exit(2);
        tp_put((char)letter);
    }
    tp_exit(0);
}

int main(void)
{
    if (tp_start_thread(print_letters, 'a', stack, sizeof stack).error != TP_OK)
        return 1;
    for (;;) {
        if (tp_wait(DEVICE).error != TP_OK)
            return 3;
        tp_cycle();
        tp_signal(HANDED_ON);
    }
}

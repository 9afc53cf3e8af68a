/* Four pages of code, of which each line is a function that does nothing. */
#include "../channels/lines.h"

#define CODE_PAGES 4

__asm__(".section .text.code, \"ax\"\n"
        "    .balign 4096\n"
        "code:\n"
        "    .rept 4 * 64\n"
        "    ret\n"
        "    .balign 64\n"
        "    .endr\n"
        "    .text\n");
extern const line code[CODE_PAGES][PAGE_LINES];

static inline void fetch(int page, int number)
{
    ((void (*)(void))code[page][number])();
}

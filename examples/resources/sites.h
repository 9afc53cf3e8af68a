/* Eight sites for a branch or a jump, each the second of four instructions. They stand at
   0x11200 + 0x400 * block, where neither a predictor of 1,024 counters nor a target buffer of
   256 places has those of what else a program runs. */
#include "../channels/channel.h"

#define SITES "0, 1, 2, 3, 4, 5, 6, 7"

#define TEXT_OF(it) #it
#define TEXT(it) TEXT_OF(it)
#define SITES_IN(block, four_instructions)              \
    __asm__(".section .text.sites, \"ax\"\n"            \
            "    .option push\n"                        \
            "    .option norvc\n"                       \
            "    .option arch, +zicsr\n"                \
            "    .balign 4096\n"                        \
            "    .skip 512 + 1024 * " TEXT(block) "\n"  \
            "run_sites:\n"                              \
            "    .irp site, " SITES "\n"                \
            four_instructions                           \
            "    .endr\n"                               \
            "    ret\n"                                 \
            "    .option pop\n"                         \
            "    .text\n")

void run_sites(uint32_t bits);

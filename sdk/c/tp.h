/* The kernel's calls, one function each, for programs in C. docs/IMAGE.md, 'Kernel
   calls', tells what each does and by which error it is refused.

   Units and ranges, where nothing else is said: a `slot` is one of the domain's 64
   capability slots, 0 to 63; those that `caps` of the description fill are the first, in
   their order. An `address` is one of the domain's own, in bytes. Times are in cycles. */
#ifndef TP_H
#define TP_H

#include <stdint.h>

#define TP_SLOTS 64
#define TP_PAGE_BYTES 4096u
#define TP_TABLE_BYTES 0x400000u /* what one page table maps */
#define TP_OUTPUT_BYTES 4096     /* what a domain can print */
#define TP_BOX_WORDS 16          /* what a slot can put into a box */
#define TP_READINGS 256          /* of the values that it reads from counters the report keeps the first */

enum tp_error {
    TP_OK = 0,
    TP_BAD_CALL = 1, /* no such call, or one that the domain's `calls` leave out */
    TP_BAD_SLOT = 2,
    TP_EMPTY = 3,
    TP_USED = 4,
    TP_WRONG_KIND = 5,
    TP_BAD_RIGHTS = 6,
    TP_BAD_ADDRESS = 7,
    TP_MAPPED = 8,
    TP_NO_TABLE = 9,
    TP_NO_FRAME = 10,
    TP_OUTPUT_FULL = 11,
    TP_IN_USE = 12,
    TP_NO_THREAD = 13,
    TP_NO_BOX = 14,
    TP_BOX_FULL = 15,
    TP_NO_MAIL = 16,
};

enum tp_call {
    TP_CALL_EXIT = 0,
    TP_CALL_PUT = 1,
    TP_CALL_ALLOC = 2,
    TP_CALL_TABLE = 3,
    TP_CALL_MAP = 4,
    TP_CALL_UNMAP = 5,
    TP_CALL_COPY = 6,
    TP_CALL_DELETE = 7,
    TP_CALL_REVOKE = 8,
    TP_CALL_POLL = 9,
    TP_CALL_WAIT = 10,
    TP_CALL_SIGNAL = 11,
    TP_CALL_SPAWN = 12,
    TP_CALL_YIELD = 13,
    TP_CALL_END_THREAD = 14,
    TP_CALL_SEND = 19,
    TP_CALL_RECV = 20,
};

/* Rights, of which the sums 1, 3, 4, 5 and 7 are good. */
enum tp_rights { TP_READ = 1, TP_WRITE = 2, TP_EXECUTE = 4 };

/* What ALLOC makes of a frame. */
enum tp_kind { TP_PAGE = 0, TP_PAGE_TABLE = 1 };

/* A reply; where it is an error the value is 0, and nothing else is changed. */
struct tp_reply {
    enum tp_error error;
    uint32_t value;
};

static inline struct tp_reply tp_call(enum tp_call number, uint32_t a, uint32_t b, uint32_t c)
{
    register uint32_t a0 __asm__("a0") = a;
    register uint32_t a1 __asm__("a1") = b;
    register uint32_t a2 __asm__("a2") = c;
    register uint32_t a7 __asm__("a7") = number;
    __asm__ volatile("ecall" : "+r"(a0), "+r"(a1) : "r"(a2), "r"(a7) : "memory");
    return (struct tp_reply){(enum tp_error)a0, a1};
}

/* Ends the domain, with any code of 32 bits. (Where `calls` leave EXIT out nothing does, and what comes next is run.) */
static inline void __attribute__((noreturn)) tp_exit(uint32_t code)
{
    tp_call(TP_CALL_EXIT, code, 0, 0);
    __builtin_unreachable();
}

/* Prints a byte; TP_OUTPUT_FULL after TP_OUTPUT_BYTES of them. */
static inline enum tp_error tp_put(char byte)
{
    return tp_call(TP_CALL_PUT, (uint8_t)byte, 0, 0).error;
}

/* Takes a frame of the domain that is free, and zeroes it; the slot, which is empty, names
   it: as a page with all rights, mapped nowhere, or as a page table, installed nowhere. */
static inline enum tp_error tp_alloc(uint32_t slot, enum tp_kind kind)
{
    return tp_call(TP_CALL_ALLOC, slot, kind, 0).error;
}

/* Installs the slot's page table for the 4 MiB at `address`, a multiple of TP_TABLE_BYTES.
   Those of the program's segments are there from the beginning. */
static inline enum tp_error tp_table(uint32_t slot, uint32_t address)
{
    return tp_call(TP_CALL_TABLE, slot, address, 0).error;
}

/* Maps the slot's page at `address`, a multiple of TP_PAGE_BYTES, for which a page table is
   there, with rights that it has: a sum of `tp_rights`. */
static inline enum tp_error tp_map(uint32_t slot, uint32_t address, uint32_t rights)
{
    return tp_call(TP_CALL_MAP, slot, address, rights).error;
}

/* Unmaps the slot's page, where it is mapped through this slot. */
static inline enum tp_error tp_unmap(uint32_t slot)
{
    return tp_call(TP_CALL_UNMAP, slot, 0, 0).error;
}

/* Slot `to`, which is empty, names what slot `from` does: a line, or a page, with rights
   that it has, mapped nowhere. */
static inline enum tp_error tp_copy(uint32_t from, uint32_t to, uint32_t rights)
{
    return tp_call(TP_CALL_COPY, from, to, rights).error;
}

/* Empties the slot. What was mapped or installed through it no longer is, and a frame that
   no slot names any more is free. */
static inline enum tp_error tp_delete(uint32_t slot)
{
    return tp_call(TP_CALL_DELETE, slot, 0, 0).error;
}

/* Deletes every other slot that names the same; the value is their number, 0 to 63. */
static inline struct tp_reply tp_revoke(uint32_t slot)
{
    return tp_call(TP_CALL_REVOKE, slot, 0, 0);
}

/* The value is 1 where an interrupt of the slot's line had come, which is then taken, else 0. */
static inline struct tp_reply tp_poll(uint32_t slot)
{
    return tp_call(TP_CALL_POLL, slot, 0, 0);
}

/* Waits for an interrupt of the slot's line, where none has come yet; the value is 1. The
   domain's other threads run meanwhile. */
static inline struct tp_reply tp_wait(uint32_t slot)
{
    return tp_call(TP_CALL_WAIT, slot, 0, 0);
}

/* Does what an interrupt of the slot's line would. */
static inline enum tp_error tp_signal(uint32_t slot)
{
    return tp_call(TP_CALL_SIGNAL, slot, 0, 0).error;
}

/* Starts a thread at an address, a multiple of 4, with nothing but x10; the value is its
   number, 0 to 7. A function in C wants a stack: tp_start_thread. */
static inline struct tp_reply tp_spawn(uint32_t address, uint32_t x10)
{
    return tp_call(TP_CALL_SPAWN, address, x10, 0);
}

/* The domain's next thread that is ready runs. */
static inline void tp_yield(void)
{
    tp_call(TP_CALL_YIELD, 0, 0, 0);
}

/* Ends the thread; with the last one the domain has exited with code 0. */
static inline void __attribute__((noreturn)) tp_end_thread(void)
{
    tp_call(TP_CALL_END_THREAD, 0, 0, 0);
    __builtin_unreachable();
}

/* Puts a word into a box of the image's `mail`, by its place there from 0. It goes off as
   the slot ends. TP_NO_BOX where the box is not from this domain; TP_BOX_FULL after
   TP_BOX_WORDS words in a slot, whether or not the receiver has taken earlier ones. */
static inline enum tp_error tp_send(uint32_t box, uint32_t word)
{
    return tp_call(TP_CALL_SEND, box, word, 0).error;
}

/* Takes the first word that is left in a box; the value is the word. TP_NO_BOX where the box
   is not to this domain; TP_NO_MAIL where none is left. Words come in as a slot begins, in
   the place of those that were not taken. (In an image without boxes both calls are
   TP_BAD_CALL.) */
static inline struct tp_reply tp_recv(uint32_t box)
{
    return tp_call(TP_CALL_RECV, box, 0, 0);
}

/* ---- beyond the calls */

void tp_thread_entry(void); /* in crt0.S */

/* Starts a thread that runs a function on a stack of its own, of 32 bytes at least, and ends
   as it returns; the value is its number. */
static inline struct tp_reply tp_start_thread(void (*function)(uint32_t), uint32_t argument,
                                              void *stack, uint32_t stack_bytes)
{
    uint32_t top = ((uint32_t)stack + stack_bytes - 16) & ~15u;
    uint32_t *begun_with = (uint32_t *)top;
    begun_with[0] = (uint32_t)function;
    begun_with[1] = argument;
    return tp_spawn((uint32_t)tp_thread_entry, top);
}

/* Counters: of the clock, in cycles, which goes on while others run, and of the instructions
   that the domain has retired; each the low or the high 32 bits. Each value read is one of
   the domain's readings in the report, which counts all and keeps the first TP_READINGS.
   (Their name in assembler is an extension's beside rv32i.) */
#define TP_COUNTER(name, csr)                                                      \
    static inline uint32_t name(void)                                              \
    {                                                                              \
        uint32_t value;                                                            \
        __asm__ volatile(".option push\n\t.option arch, +zicsr\n\tcsrr %0, " csr   \
                         "\n\t.option pop"                                         \
                         : "=r"(value)                                             \
                         :                                                         \
                         : "memory");                                              \
        return value;                                                              \
    }
TP_COUNTER(tp_cycle, "cycle")
TP_COUNTER(tp_cycle_high, "cycleh")
TP_COUNTER(tp_instret, "instret")
TP_COUNTER(tp_instret_high, "instreth")
#undef TP_COUNTER

/* How many cycles a turn of tp_rest takes: two instructions that are in the cache, each
   `base + l1 + tlb` of the image's costs. On a machine with other costs than those of
   machine.toml, define it before this file is included. */
#ifndef TP_REST_TURN
#define TP_REST_TURN 6
#endif

/* Rests for about so many cycles, in turns of a loop: it reads no clock, since what a spin
   reads would fill the readings that are kept. They are cycles in which the domain runs:
   where its slot ends meanwhile, what is left is rested in its next one. So a spy that
   looks again in each of its slots rests for a slot's length at least. */
static inline void tp_rest(uint32_t cycles)
{
    for (uint32_t turns = cycles / TP_REST_TURN; turns; turns--)
        __asm__ volatile("");
}

/* Prints a text; ends at the first error. */
static inline enum tp_error tp_print(const char *text)
{
    for (; *text; text++) {
        enum tp_error error = tp_put(*text);
        if (error != TP_OK)
            return error;
    }
    return TP_OK;
}

#endif

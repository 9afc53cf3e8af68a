// The heap of the page's module, in the place of a C library's: what the library asks
// for memory by (`rattle_alloc`, `rattle_realloc`, `rattle_dealloc`), and room for what
// the page hands over.
//
// A block is a power of two bytes, of which the first 16 say which power. Freed blocks
// wait in a list for each power; a new one is taken from the end of the memory, which
// grows. A module answers once and is thrown away, so nothing is given back to the host.

#include "heap.h"

enum { HEAD = 16, LEAST = 5, POWERS = 41, PAGE = 1 << 16 };

// What an allocation comes to: whether there is memory, and where.
struct tried {
    u64 ok;
    u8 *at;
};

struct free_block {
    struct free_block *next;
};

extern u8 __heap_base;

static struct free_block *freed[POWERS];
static u8 *end; // of what was ever taken; null before the first block
static u64 most; // bytes of the whole memory; 0: as many as the host gives
static u8 nothing[HEAD]; // where blocks of no bytes are

void heap_limit(u64 bytes) { most = bytes; }

static u64 *power_of(u8 *block) { return (u64 *)(block - HEAD); }

// The memory has so many bytes, or gets them; a quarter more where it can.
static int reach(u64 bytes)
{
    u64 have = (u64)__builtin_wasm_memory_size(0) * PAGE;
    if (most && bytes > most) return 0;
    if (bytes <= have) return 1;
    u64 pages = (bytes - have + PAGE - 1) / PAGE;
    u64 more = have / PAGE / 4;
    if (more > pages && !(most && have + more * PAGE > most)) pages = more;
    // (as 32 bits: of memories of 32 bits a failure is not -1 in 64)
    return (unsigned)__builtin_wasm_memory_grow(0, pages) != ~0u;
}

u8 *heap_take(u64 bytes)
{
    unsigned power = LEAST;
    while (power < POWERS && ((u64)1 << power) < bytes + HEAD) power++;
    if (power == POWERS) return 0;
    struct free_block *block = freed[power];
    if (block) {
        freed[power] = block->next;
        return (u8 *)block;
    }
    if (!end) end = (u8 *)(((u64)&__heap_base + HEAD - 1) / HEAD * HEAD);
    if (!reach((u64)end + ((u64)1 << power))) return 0;
    u8 *new_block = end + HEAD;
    end += (u64)1 << power;
    *power_of(new_block) = power;
    return new_block;
}

static void give(u8 *block)
{
    struct free_block *it = (struct free_block *)block;
    u64 power = *power_of(block);
    it->next = freed[power];
    freed[power] = it;
}

struct tried rattle_alloc(u64 bytes, u64 alignment)
{
    if (bytes == 0) return (struct tried){1, nothing};
    u8 *block = alignment > HEAD ? 0 : heap_take(bytes);
    return (struct tried){block != 0, block};
}

struct tried rattle_realloc(u8 *block, u64 kept, u64 bytes, u64 alignment)
{
    int is_block = block != nothing;
    if (is_block && bytes > 0 && bytes + HEAD <= (u64)1 << *power_of(block)) return (struct tried){1, block};
    struct tried it = rattle_alloc(bytes, alignment);
    if (it.ok && is_block) {
        __builtin_memcpy(it.at, block, kept < bytes ? kept : bytes);
        give(block);
    }
    return it;
}

void rattle_dealloc(u8 *block)
{
    if (block != nothing) give(block);
}

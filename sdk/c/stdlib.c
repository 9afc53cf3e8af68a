/* Memory, numbers at random, and how a program ends. */
#include <stdint.h>
#include <stdlib.h>
#include <string.h>

#include "tp.h"

/* A program may have functions of these names that are its own. */
#pragma weak malloc
#pragma weak calloc
#pragma weak realloc
#pragma weak free
#pragma weak rand
#pragma weak srand
#pragma weak exit
#pragma weak abort

#define HEAP_START 0x100000u /* beyond what link.ld places */
#define HEAP_END TP_TABLE_BYTES

/* A part of the heap: this head, and then what is handed out. Sizes are in heads. Parts that
   are free are in a list by their addresses. */
struct part {
    struct part *next;
    size_t size;
} __attribute__((aligned(16)));

static struct part *first_free;
static uint32_t heap_end = HEAP_START;
static uint32_t slots_left = TP_SLOTS; /* those beyond are used */

/* Joins a part with the one after it, where they touch. */
static void join(struct part *part)
{
    struct part *next = part->next;
    if (next && part + part->size == next) {
        part->size += next->size;
        part->next = next->next;
    }
}

static void give(struct part *part)
{
    struct part **at = &first_free, *before = NULL;
    for (; *at && *at < part; at = &(*at)->next)
        before = *at;
    part->next = *at;
    *at = part;
    join(part);
    if (before)
        join(before);
}

/* Takes the end of the first part that is great enough. */
static struct part *take(size_t size)
{
    for (struct part **at = &first_free; *at; at = &(*at)->next) {
        struct part *part = *at;
        if (part->size < size)
            continue;
        part->size -= size;
        if (!part->size)
            *at = part->next;
        part += part->size;
        part->size = size;
        return part;
    }
    return NULL;
}

/* Maps one page more at the heap's end, by the last slot that is empty. */
static enum tp_error grow(void)
{
    enum tp_error error = TP_USED;
    while (slots_left && (error = tp_alloc(slots_left - 1, TP_PAGE)) == TP_USED)
        slots_left--;
    if (error != TP_OK)
        return error;
    error = tp_map(slots_left - 1, heap_end, TP_READ | TP_WRITE);
    if (error != TP_OK) {
        tp_delete(slots_left - 1);
        return error;
    }
    slots_left--;
    struct part *page = (struct part *)heap_end;
    heap_end += TP_PAGE_BYTES;
    page->size = TP_PAGE_BYTES / sizeof *page;
    give(page);
    return TP_OK;
}

void *malloc(size_t bytes)
{
    if (!bytes || bytes > HEAP_END - HEAP_START)
        return NULL;
    size_t size = 1 + (bytes + sizeof(struct part) - 1) / sizeof(struct part);
    struct part *part = take(size);
    while (!part) {
        if (heap_end == HEAP_END || grow() != TP_OK)
            return NULL;
        part = take(size);
    }
    return part + 1;
}

void *calloc(size_t count, size_t bytes)
{
    size_t all;
    if (__builtin_mul_overflow(count, bytes, &all))
        return NULL;
    void *block = malloc(all);
    return block ? memset(block, 0, all) : NULL;
}

void *realloc(void *block, size_t bytes)
{
    void *other = malloc(bytes);
    if (block && other) {
        size_t kept = (((struct part *)block)[-1].size - 1) * sizeof(struct part);
        memcpy(other, block, kept < bytes ? kept : bytes);
        free(block);
    }
    return other;
}

void free(void *block)
{
    if (block)
        give((struct part *)block - 1);
}

static uint32_t state = 1;

void srand(unsigned seed)
{
    state = seed ? seed : 1; /* (from 0 none but 0 would come) */
}

/* Marsaglia's xorshift, which needs no product. */
int rand(void)
{
    state ^= state << 13;
    state ^= state >> 17;
    state ^= state << 5;
    return (int)(state & RAND_MAX);
}

void exit(int code)
{
    tp_exit((uint32_t)code);
}

void abort(void)
{
    __asm__ volatile("ebreak");
    __builtin_unreachable();
}

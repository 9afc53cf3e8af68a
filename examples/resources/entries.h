/* One page of memory under many addresses: each costs no frame but an entry of a page table,
   and a walk reads that from the second level. Entries that are sixteen pages apart stand in
   lines of their own. */
#include "../channels/channel.h"

#define SECRETS 8
#define ENTRIES_OF_LINE 16
#define FIRST_PAGE 512 /* of a table's 1,024 */

/* The address of a secret's entry in the table of the addresses from `region` on. */
static inline uint32_t address_of(uint32_t region, uint32_t secret)
{
    return region + (FIRST_PAGE + ENTRIES_OF_LINE * secret) * TP_PAGE_BYTES;
}

/* Maps the page of capability slot 0, the stack, there, too, by a slot that is empty. */
static inline void map_too(uint32_t slot, uint32_t address)
{
    tp_copy(0, slot, TP_READ);
    tp_map(slot, address, TP_READ);
}

static inline void load(uint32_t address)
{
    (void)*(volatile uint32_t *)address;
}

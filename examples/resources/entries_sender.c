/* A sender that makes four page tables, rests until its slot is over, and loads once from an
   address in each, which its secret chooses. Their entries lie in one set of a second level
   that is not shared out, which has four ways. */
#include "entries.h"

#define TURNS 4400 /* longer than a slot */
#define TABLES 4
#define REGION(table) ((1 + (table)) * TP_TABLE_BYTES)

volatile uint32_t secret = 0;

int main(void)
{
    for (uint32_t table = 0; table < TABLES; table++) {
        tp_alloc(1 + table, TP_PAGE_TABLE);
        tp_table(1 + table, REGION(table));
        map_too(1 + TABLES + table, address_of(REGION(table), secret));
    }
    rest(TURNS);
    for (uint32_t table = 0; table < TABLES; table++)
        load(address_of(REGION(table), secret));
    return 0;
}

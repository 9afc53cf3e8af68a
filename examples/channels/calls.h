/* The kernel calls by which a secret is told, one for each of its bits. All are refused,
   since they name a capability slot that is empty, and so change nothing but caches. */
#include "channel.h"

#define BITS 3

static inline void call_of(int bit)
{
    tp_call(TP_CALL_TABLE + bit, 63, 0, 0);
}

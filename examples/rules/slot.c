/*
 * A local alert, for any milestone. LOC02: from the TOBT, with the taxi time from its stand, the flight misses its
 * slot (CTOT). The other local alerts stay as they were.
 */
#include "helpers.h"

__attribute__((section("entry")))
u64 slot(const struct flight *flight, u64 length, u64 now, u64 milestone)
{
    u64 others = (flight->alerts >> 16) & ~LOC(2);
    u64 stand = flight->stand;

    if (flight->ctot == 0 || flight->tobt == 0 || stand > 999)
        return others;
    return flight->tobt + taxi_out(stand) > flight->ctot ? others | LOC(2) : others;
}

/*
 * The same as slot.c without the test of the stand. It is refused: a record may hold a stand up to 65535, and the taxi
 * time is promised up to stand 999 alone.
 */
#include "helpers.h"

__attribute__((section("entry")))
u64 slot(const struct flight *flight, u64 length, u64 now, u64 milestone)
{
    u64 others = (flight->alerts >> 16) & ~LOC(2);

    if (flight->ctot == 0 || flight->tobt == 0)
        return others;
    return flight->tobt + taxi_out(flight->stand) > flight->ctot ? others | LOC(2) : others;
}

/*
 * Local alerts, for any milestone. LOC07: the TOBT is more than 30 minutes behind the EOBT. LOC08: the flight has
 * landed and no stand is known. The other local alerts stay as they were.
 */
#include "flight.h"

__attribute__((section("entry")))
u64 alert(const struct flight *flight, u64 length, u64 now, u64 milestone)
{
    u64 alerts = (flight->alerts >> 16) & ~(LOC(7) | LOC(8));

    if (flight->eobt != 0 && flight->tobt > (u64)flight->eobt + 30)
        alerts |= LOC(7);
    if ((flight->reached & (1u << 6)) != 0 && flight->stand == 0)
        alerts |= LOC(8);
    return alerts;
}

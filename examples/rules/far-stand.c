/*
 * Local alerts, for milestones 7 (in-block) and 9 (TOBT). LOC00: the stand is far, 20 minutes or more from the runway.
 * LOC01: from the TOBT, with the taxi time from its stand, the flight misses its slot (CTOT). The other local alerts
 * stay as they were.
 */
#include "helpers.h"

__attribute__((section("entry")))
u64 far_stand(const struct flight *flight, u64 length, u64 now, u64 milestone)
{
    u64 alerts = (flight->alerts >> 16) & ~(LOC(0) | LOC(1));
    u64 stand = flight->stand, taxi;

    if (stand == 0 || stand > 999)
        return alerts;
    taxi = taxi_out(stand);
    if (taxi >= 20)
        alerts |= LOC(0);
    if (flight->tobt != 0 && flight->ctot != 0 && flight->tobt + taxi > flight->ctot)
        alerts |= LOC(1);
    return alerts;
}

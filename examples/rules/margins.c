/*
 * Local alerts, for milestones 7 (in-block) and 9 (TOBT), with the least turn-round time of the planned type from the
 * in-block time on, and with the taxi time from the stand. LOC03: the flight isn't ready at its EOBT. LOC04: nor at
 * its SOBT. LOC05: also where it leaves its stand at its EOBT it misses its slot (CTOT). LOC06: it misses its slot
 * once it is ready. The other local alerts stay as they were. Four calls of helpers need more values than there are
 * registers that keep them, so some go to the stack.
 */
#include "helpers.h"

__attribute__((section("entry")))
u64 margins(const struct flight *flight, u64 length, u64 now, u64 milestone)
{
    u64 alerts = (flight->alerts >> 16) & ~(LOC(3) | LOC(4) | LOC(5) | LOC(6));
    u64 stand = flight->stand, landed, planned, scheduled, slot, taxi, ready;

    if (stand > 999)
        return alerts;
    landed = flight->aibt;
    planned = flight->eobt;
    scheduled = flight->sobt;
    slot = flight->ctot;
    taxi = taxi_out(stand);
    ready = add_minutes(landed, least_turn_round(*(const u32 *)flight->plan_type));
    if (planned != 0 && ready > planned)
        alerts |= LOC(3);
    if (scheduled != 0 && ready > scheduled)
        alerts |= LOC(4);
    if (slot != 0 && add_minutes(planned, taxi) > slot)
        alerts |= LOC(5);
    if (slot != 0 && ready + taxi > slot)
        alerts |= LOC(6);
    return alerts;
}

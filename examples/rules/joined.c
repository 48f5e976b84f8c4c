/*
 * Two rules in one place, for any milestone: the local alerts of slot.c (LOC02) and of alert.c (LOC07, LOC08). Each is
 * a function of its own with bits of its own, which the compiler puts into the rule. The other local alerts stay as
 * they were.
 */
#include "helpers.h"

static inline __attribute__((always_inline)) u64 missed_slot(const struct flight *flight)
{
    u64 stand = flight->stand;

    if (flight->ctot == 0 || flight->tobt == 0 || stand > 999)
        return 0;
    return flight->tobt + taxi_out(stand) > flight->ctot ? LOC(2) : 0;
}

static inline __attribute__((always_inline)) u64 late_or_without_stand(const struct flight *flight)
{
    u64 alerts = 0;

    if (flight->eobt != 0 && flight->tobt > (u64)flight->eobt + 30)
        alerts |= LOC(7);
    if ((flight->reached & (1u << 6)) != 0 && flight->stand == 0)
        alerts |= LOC(8);
    return alerts;
}

__attribute__((section("entry")))
u64 joined(const struct flight *flight, u64 length, u64 now, u64 milestone)
{
    u64 others = (flight->alerts >> 16) & ~(LOC(2) | LOC(7) | LOC(8));

    return others | missed_slot(flight) | late_or_without_stand(flight);
}

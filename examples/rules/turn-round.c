/*
 * A procedure for the TOBT, for milestone 7 (in-block): the aircraft is ready when the least turn-round time of its
 * planned type has passed since it came in-block; not before the EOBT of its flight plan, and not before now. Where a
 * target stands already, it is left to those who gave it.
 */
#include "helpers.h"

__attribute__((section("entry")))
u64 turn_round(const struct flight *flight, u64 length, u64 now, u64 milestone)
{
    u64 ready;

    if (flight->aibt == 0 || flight->tobt != 0)
        return 0;
    ready = flight->aibt + least_turn_round(*(const u32 *)flight->plan_type);
    if (ready < flight->eobt)
        ready = flight->eobt;
    return ready < now ? now : ready;
}

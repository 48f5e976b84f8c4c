/*
 * A procedure for the TOBT, for milestone 7 (in-block): the aircraft is ready when its minimum turn-round time has
 * passed since it came in-block, and not before now. The answer 0 changes nothing.
 */
#include "flight.h"

__attribute__((section("entry")))
u64 tobt(const struct flight *flight, u64 length, u64 now, u64 milestone)
{
    u64 ready = (u64)flight->aibt + flight->mttt;

    if (flight->aibt == 0)
        return 0;
    return ready < now ? now : ready;
}

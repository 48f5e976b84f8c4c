/*
 * A local alert for milestones 13 (start-up request) and 15 (off-block) of a board that was migrated. LOC09: the de-icing
 * of the flight ended more than 30 minutes ago, so that its wings may have frozen again. The other local alerts stay as
 * they were.
 */
#include "helpers.h"

#define HOLD_OVER 30

__attribute__((section("entry")))
u64 hold_over(const struct migrated_flight *record, u64 length, u64 now, u64 milestone)
{
    u64 others = (record->flight.alerts >> 16) & ~LOC(9);
    u64 ended = record->aezt;

    return ended != 0 && now > ended + HOLD_OVER ? others | LOC(9) : others;
}

/*
 * A field that is compared, and read again after a call of a helper. Clang reads it from the record again, and of the
 * new number nothing is known but its size. Mended: it is read once, into a variable, and the variable is compared and
 * passed.
 */
#include "../helpers.h"

__attribute__((section("refused")))
u64 as_written(const struct flight *flight, u64 length, u64 now, u64 milestone)
{
    u64 turn;

    if (flight->stand > 999)
        return 0;
    turn = least_turn_round(*(const u32 *)flight->plan_type);
    return flight->aibt + turn + taxi_out(flight->stand);
}

__attribute__((section("mended")))
u64 as_mended(const struct flight *flight, u64 length, u64 now, u64 milestone)
{
    u64 stand = flight->stand, turn;

    if (stand > 999)
        return 0;
    turn = least_turn_round(*(const u32 *)flight->plan_type);
    return flight->aibt + turn + taxi_out(stand);
}

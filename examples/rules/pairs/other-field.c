/*
 * A test of another field between the read of a number and its comparison. Clang compares a copy of the number, and
 * passes the number with a mask. Mended: the comparison is right behind the read.
 */
#include "../helpers.h"

__attribute__((section("refused")))
u64 as_written(const struct flight *flight, u64 length, u64 now, u64 milestone)
{
    u64 stand = flight->stand, landed = flight->aldt;

    if (landed == 0 || stand > 999)
        return 0;
    return landed + taxi_out(stand) > flight->ctot ? LOC(0) : 0;
}

__attribute__((section("mended")))
u64 as_mended(const struct flight *flight, u64 length, u64 now, u64 milestone)
{
    u64 stand = flight->stand, landed = flight->aldt;

    if (stand > 999 || landed == 0)
        return 0;
    return landed + taxi_out(stand) > flight->ctot ? LOC(0) : 0;
}

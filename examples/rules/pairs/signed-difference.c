/*
 * A difference of two times as a signed number. Signed comparisons narrow nothing. Mended: the difference of unsigned
 * numbers of 64 bits, which wraps to a great number where it is below 0, so that one comparison tells of both bounds.
 */
#include "../helpers.h"

__attribute__((section("refused")))
u64 as_written(const struct flight *flight, u64 length, u64 now, u64 milestone)
{
    int left = flight->ctot - flight->tobt;

    if (left < 0 || left > 10000)
        return 0;
    return add_minutes(flight->eobt, left);
}

__attribute__((section("mended")))
u64 as_mended(const struct flight *flight, u64 length, u64 now, u64 milestone)
{
    u64 left = (u64)flight->ctot - flight->tobt;

    if (left > 10000)
        return 0;
    return add_minutes(flight->eobt, left);
}

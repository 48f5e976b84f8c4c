/*
 * Two bounds of one number, for the argument of a helper. Clang makes one comparison of both, of the difference from
 * the lower bound, and passes the number itself, which is then not known to be at most 999. Mended: the upper bound is
 * compared last, behind an empty asm, so that to clang it may be any number there.
 */
#include "../helpers.h"

__attribute__((section("refused")))
u64 as_written(const struct flight *flight, u64 length, u64 now, u64 milestone)
{
    u64 stand = flight->stand;

    if (stand >= 100 && stand <= 999)
        return taxi_out(stand) >= 20 ? LOC(0) : 0;
    return 0;
}

__attribute__((section("mended")))
u64 as_mended(const struct flight *flight, u64 length, u64 now, u64 milestone)
{
    u64 stand = flight->stand;

    if (stand < 100)
        return 0;
    asm volatile("" : "+r"(stand));
    if (stand > 999)
        return 0;
    return taxi_out(stand) >= 20 ? LOC(0) : 0;
}

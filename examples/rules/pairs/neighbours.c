/*
 * Some numbers that follow one another, for the argument of a helper. Clang makes one comparison of the difference
 * from the least of them. Mended: the greatest number that the helper takes is compared as well, last, behind an empty
 * asm.
 */
#include "../helpers.h"

__attribute__((section("refused")))
u64 as_written(const struct flight *flight, u64 length, u64 now, u64 milestone)
{
    u64 stand = flight->stand;

    if (stand != 12 && stand != 13 && stand != 14)
        return 0;
    return taxi_out(stand) >= 20 ? LOC(0) : 0;
}

__attribute__((section("mended")))
u64 as_mended(const struct flight *flight, u64 length, u64 now, u64 milestone)
{
    u64 stand = flight->stand;

    if (stand != 12 && stand != 13 && stand != 14)
        return 0;
    asm volatile("" : "+r"(stand));
    if (stand > 999)
        return 0;
    return taxi_out(stand) >= 20 ? LOC(0) : 0;
}

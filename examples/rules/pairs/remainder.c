/*
 * A remainder, for the argument of a helper. Clang makes of it a division, a product and a difference, of which the
 * range is too wide, and drops a comparison that can't fail. Mended: behind an empty asm the remainder may be any
 * number to clang, so the comparison stays.
 */
#include "../helpers.h"

__attribute__((section("refused")))
u64 as_written(const struct flight *flight, u64 length, u64 now, u64 milestone)
{
    u64 gate = flight->stand % 100;

    if (gate > 99)
        return 0;
    return taxi_out(gate) >= 20 ? LOC(0) : 0;
}

__attribute__((section("mended")))
u64 as_mended(const struct flight *flight, u64 length, u64 now, u64 milestone)
{
    u64 gate = flight->stand % 100;

    asm volatile("" : "+r"(gate));
    if (gate > 99)
        return 0;
    return taxi_out(gate) >= 20 ? LOC(0) : 0;
}

/*
 * What is left of a day after a number of minutes that was limited before. Clang takes the difference first and
 * compares the number afterwards. Mended: an empty asm stands behind the limit, so that to clang it may be any number
 * there.
 */
#include "../helpers.h"

__attribute__((section("refused")))
u64 as_written(const struct flight *flight, u64 length, u64 now, u64 milestone)
{
    u64 turn = flight->mttt;

    if (turn > 1440)
        turn = 1440;
    return add_minutes(flight->aibt, 1440 - turn);
}

__attribute__((section("mended")))
u64 as_mended(const struct flight *flight, u64 length, u64 now, u64 milestone)
{
    u64 turn = flight->mttt;

    if (turn > 1440)
        turn = 1440;
    asm volatile("" : "+r"(turn));
    return add_minutes(flight->aibt, 1440 - turn);
}

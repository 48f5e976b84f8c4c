/*
 * A byte that is compared with 128, for an index. Clang makes a test of its sign of it, and tests of signs narrow
 * nothing. Mended: behind an empty asm it may be any number to clang, which then compares the number itself. A
 * comparison with another bound, as `i > 120`, and a mask, as `i & 127`, pass as well.
 */
#include "../helpers.h"

__attribute__((section("refused")))
u64 as_written(const struct flight *flight, u64 length, u64 now, u64 milestone)
{
    u64 i = flight->exit;

    if (i >= 128)
        return 0;
    return ((const u8 *)flight)[i] == 'D' ? LOC(0) : 0;
}

__attribute__((section("mended")))
u64 as_mended(const struct flight *flight, u64 length, u64 now, u64 milestone)
{
    u64 i = flight->exit;

    asm volatile("" : "+r"(i));
    if (i >= 128)
        return 0;
    return ((const u8 *)flight)[i] == 'D' ? LOC(0) : 0;
}

/*
 * Two bounds of an index into the record, here one of the eight bytes of the call sign. Clang makes one comparison of
 * both, of the number under a mask, and adds the number itself to the address. Mended: the upper bound is compared
 * last, behind an empty asm, so that to clang it may be any number there.
 */
#include "../helpers.h"

__attribute__((section("refused")))
u64 as_written(const struct flight *flight, u64 length, u64 now, u64 milestone)
{
    u64 i = flight->exit;

    if (i >= 8 && i <= 15)
        return ((const u8 *)flight)[i] == 'D' ? LOC(0) : 0;
    return 0;
}

__attribute__((section("mended")))
u64 as_mended(const struct flight *flight, u64 length, u64 now, u64 milestone)
{
    u64 i = flight->exit;

    if (i < 8)
        return 0;
    asm volatile("" : "+r"(i));
    if (i > 15)
        return 0;
    return ((const u8 *)flight)[i] == 'D' ? LOC(0) : 0;
}

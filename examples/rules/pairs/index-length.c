/*
 * The same bounds of an index. The sum is compared, and the index itself is used. Mended: the index is compared, with
 * the length less what is read, which can't wrap since a record has 128 bytes or 160.
 */
#include "../helpers.h"

__attribute__((section("refused")))
u64 as_written(const struct flight *flight, u64 length, u64 now, u64 milestone)
{
    u64 i = flight->exit;

    if (i + 4 > length)
        return 0;
    return *(const u32 *)((const u8 *)flight + i) != 0 ? LOC(0) : 0;
}

__attribute__((section("mended")))
u64 as_mended(const struct flight *flight, u64 length, u64 now, u64 milestone)
{
    u64 i = flight->exit;

    if (i > length - 4)
        return 0;
    return *(const u32 *)((const u8 *)flight + i) != 0 ? LOC(0) : 0;
}

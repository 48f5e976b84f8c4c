/*
 * Bounds as programs of XDP have them: the end of what is read, compared with the end of the record. Clang compares the
 * sum in a register of its own, and reads at the pointer itself, of which the comparison tells nothing. Mended: the
 * pointer is compared, with the end less what is read.
 */
#include "../helpers.h"

__attribute__((section("refused")))
u64 as_written(const struct flight *flight, u64 length, u64 now, u64 milestone)
{
    const u8 *end = (const u8 *)flight + length;
    const u8 *p = (const u8 *)flight + flight->exit;

    if (p + 4 > end)
        return 0;
    return *(const u32 *)p != 0 ? LOC(0) : 0;
}

__attribute__((section("mended")))
u64 as_mended(const struct flight *flight, u64 length, u64 now, u64 milestone)
{
    const u8 *end = (const u8 *)flight + length;
    const u8 *p = (const u8 *)flight + flight->exit;

    if (p > end - 4)
        return 0;
    return *(const u32 *)p != 0 ? LOC(0) : 0;
}

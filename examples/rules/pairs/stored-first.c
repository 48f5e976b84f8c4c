/*
 * A number that is stored on the stack and then compared. A comparison tells of the register and not of the word from
 * which it came, and the use reads the word again. Mended: it is compared before it is stored.
 */
#include "../helpers.h"

__attribute__((section("refused")))
u64 as_written(const struct flight *flight, u64 length, u64 now, u64 milestone)
{
    volatile u64 i = flight->exit;

    if (i > 120)
        return 0;
    return ((const u8 *)flight)[i];
}

__attribute__((section("mended")))
u64 as_mended(const struct flight *flight, u64 length, u64 now, u64 milestone)
{
    u64 i = flight->exit;

    if (i > 120)
        return 0;
    volatile u64 kept = i;
    return ((const u8 *)flight)[kept];
}

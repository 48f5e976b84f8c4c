/*
 * Bytes of a local number, written at an index. In memory that lies at a multiple of 8 clang joins address and index
 * by OR, of which the range is too wide. Mended: an array of bytes, each written by itself first.
 */
#include "../helpers.h"

__attribute__((section("refused")))
u64 as_written(const struct flight *flight, u64 length, u64 now, u64 milestone)
{
    u64 word = 0;

    ((u8 *)&word)[flight->exit & 7] = 1;
    ((u8 *)&word)[flight->layout & 7] = 1;
    return (word >> 8) & 255;
}

__attribute__((section("mended")))
u64 as_mended(const struct flight *flight, u64 length, u64 now, u64 milestone)
{
    volatile u8 bytes[8];

    bytes[0] = bytes[1] = bytes[2] = bytes[3] = bytes[4] = bytes[5] = bytes[6] = bytes[7] = 0;
    bytes[flight->exit & 7] = 1;
    bytes[flight->layout & 7] = 1;
    return bytes[1];
}

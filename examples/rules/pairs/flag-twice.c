/*
 * A flag that says that a number was compared, and is asked again where the number is used. Clang keeps the flag as 0
 * or 1 in a register, and where ways meet the number has all its values again; that the flag is 1 tells nothing of it.
 * Mended: the number is compared itself, behind an empty asm, in an `if` of its own. As `has_stand && stand <= 999`
 * both become one flag again, and the rule is refused.
 */
#include "../helpers.h"

__attribute__((section("refused")))
u64 as_written(const struct flight *flight, u64 length, u64 now, u64 milestone)
{
    u64 stand = flight->stand, turn = flight->mttt, has_stand = 0;

    if (flight->aibt != 0 && stand <= 999)
        has_stand = 1;
    else if (flight->eldt != 0 && stand <= 499)
        has_stand = 1;
    if (turn == 0)
        turn = least_turn_round(*(const u32 *)flight->plan_type);
    if (has_stand)
        turn += taxi_out(stand);
    return now + turn > flight->tobt ? LOC(0) : 0;
}

__attribute__((section("mended")))
u64 as_mended(const struct flight *flight, u64 length, u64 now, u64 milestone)
{
    u64 stand = flight->stand, turn = flight->mttt, has_stand = 0;

    if (flight->aibt != 0 && stand <= 999)
        has_stand = 1;
    else if (flight->eldt != 0 && stand <= 499)
        has_stand = 1;
    if (turn == 0)
        turn = least_turn_round(*(const u32 *)flight->plan_type);
    if (has_stand) {
        asm volatile("" : "+r"(stand));
        if (stand <= 999)
            turn += taxi_out(stand);
    }
    return now + turn > flight->tobt ? LOC(0) : 0;
}

/*
 * A number that is compared, then a call of another helper, then the use. Four registers outlast a call. Where more
 * numbers are needed behind it, clang stores this one on the stack and then compares it in its register; what is
 * loaded behind the call is the word of the stack, of which the comparison tells nothing. Mended: it is compared once
 * more, behind the call and an empty asm, right before its use.
 */
#include "../helpers.h"

__attribute__((section("refused")))
u64 as_written(const struct flight *flight, u64 length, u64 now, u64 milestone)
{
    u64 stand = flight->stand, in = flight->exit, turn = flight->mttt, landing = flight->eldt, tobt = flight->tobt;
    u64 planned = least_turn_round(*(const u32 *)flight->plan_type), scheduled;

    if (stand > 999 || in > 60 || turn > 1440 || landing == 0)
        return 0;
    scheduled = least_turn_round(*(const u32 *)flight->scheduled_type);
    return landing + in + turn + planned + scheduled + taxi_out(stand) > tobt + now ? LOC(0) : 0;
}

__attribute__((section("mended")))
u64 as_mended(const struct flight *flight, u64 length, u64 now, u64 milestone)
{
    u64 stand = flight->stand, in = flight->exit, turn = flight->mttt, landing = flight->eldt, tobt = flight->tobt;
    u64 planned = least_turn_round(*(const u32 *)flight->plan_type), scheduled;

    if (stand > 999 || in > 60 || turn > 1440 || landing == 0)
        return 0;
    scheduled = least_turn_round(*(const u32 *)flight->scheduled_type);
    asm volatile("" : "+r"(stand));
    if (stand > 999)
        return 0;
    return landing + in + turn + planned + scheduled + taxi_out(stand) > tobt + now ? LOC(0) : 0;
}

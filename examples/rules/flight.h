/* A flight's record of 128 bytes, as a rule sees it. Times are minutes since 1970-01-01T00:00Z, 0 where not set. */
#ifndef FLIGHT_H
#define FLIGHT_H

typedef unsigned char u8;
typedef unsigned short u16;
typedef unsigned int u32;
typedef unsigned long long u64;

struct flight {
    u64 number;
    u8 callsign[8];
    u8 scheduled_type[4], plan_type[4];
    u8 scheduled_registration[8], plan_registration[8];
    u8 scheduled_destination[4], plan_destination[4];
    u32 reached; /* bit m: milestone m */
    u32 alerts;
    u16 mttt; /* minimum turn-round time in minutes */
    u16 exot; /* estimated taxi-out time in minutes */
    u16 stand;
    u8 layout;
    u8 exit; /* estimated taxi-in time in minutes */
    u32 sobt, eobt, ctot, otot, eldt, aldt, aibt, acgt;
    u32 tobt, tsat, asbt, ardt, asrt, asat, aobt, atot;
};

/* The record once the board was migrated, of 160 bytes. */
struct migrated_flight {
    struct flight flight;
    u32 eczt, eezt; /* estimated commencement and end of de-icing */
    u32 aczt, aezt; /* actual commencement and end of de-icing */
    u8 zeros[16];
};

/* The bit of a local alert in the answer of a rule of kind alert, 0 to 15. */
#define LOC(number) (1ull << (number))

_Static_assert(sizeof(struct flight) == 128, "the record has 128 bytes");
_Static_assert(sizeof(struct migrated_flight) == 160, "and 160 once the board was migrated");

#endif

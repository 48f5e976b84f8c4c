/* The helpers that a rule may call, by their numbers. Times are minutes. */
#ifndef HELPERS_H
#define HELPERS_H

#include "flight.h"

/* The least turn-round time of an aircraft type, whose four bytes are a little-endian number of 32 bits. */
static u64 (*const least_turn_round)(u64 type) = (void *)1;

/* The taxi time from a stand, 0 to 999. */
static u64 (*const taxi_out)(u64 stand) = (void *)2;

/* The sum of a moment of 32 bits and at most 10,000 minutes. For sums write `+`, which bounds nothing. */
static u64 (*const add_minutes)(u64 moment, u64 minutes) = (void *)3;

#endif

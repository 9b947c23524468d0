/* Six profiles of 16 to 512 days, on which the library and plain C are measured; and five with a cut each that changes every day, for the order in which
 * changed days are listed. */
#ifndef PROFILES_H
#define PROFILES_H

#include "../include/cloverdrum.h"

enum { DAYS = CLOVERDRUM_MOST_DAYS, PROFILES = 6, ORDERS = 5 };

struct profile {
    const char *name;
    int32_t days, first, lowest, highest;
    int16_t floors[DAYS], ceilings[DAYS], rises[DAYS];
    struct {
        int32_t kind, day, value;
    } cut; /* that changes every day; the six have none */
};

/* The six are 0 to PROFILES - 1, and the five follow. */
void fill_profile(struct profile *profile, size_t which, int32_t days);

#endif

/* Makes each call on each profile and day count, on each side that has it, for callgrind to count its instructions. Collection is on inside the entries alone
 * (--toggle-collect), and what it collected is written after each call, under the profile, the day count, the call and the side. */
#include "calls.h"

#include <stdio.h>
#include <valgrind/callgrind.h>

enum { LABEL = 100 };

static void count(enum side side, const struct call *call)
{
    char label[LABEL] __attribute__((aligned(PAGE)));
    snprintf(label, sizeof label, "%s %d %s %s", profile.name, (int)profile.days, call->name, side_names[side]);
    CALLGRIND_ZERO_STATS;
    make(side, call);
    CALLGRIND_DUMP_STATS_AT(label);
}

int main(void)
{
    for (size_t which = 0; which < PROFILES + ORDERS; which++)
        for (size_t size = 0; size < SIZES; size++) {
            open_sides(which, sizes[size]);
            for (const struct call *call = calls_of(which); call->entry != NOTHING; call++) {
                prepare(call);
                for (enum side side = LIBRARY; side < SIDES; side++)
                    if (has(side, call))
                        count(side, call);
                check(call);
            }
        }
    return 0;
}

/* The same openings and cuts in plain C, to compare with: document 000's algorithms 1 and 2, and no more than they need. Lists are as long as the days
 * ask, and the number of changed days is given back with the days, the largest loss first. Days from `first` on count in the total. */
#ifndef PLAIN_H
#define PLAIN_H

#include <stdint.h>

#define PLAIN_DAYS 512

/* Ranges with the sum of the rises before each day taken away, and the sums of floors and ceilings, over the counted days, within which the total stays. */
struct plain_ranges {
    int32_t floors[PLAIN_DAYS], ceilings[PLAIN_DAYS];
    int32_t least, most;
};

struct plain_session {
    int32_t days, first, spent;
    int32_t shifts[PLAIN_DAYS], shift_sum;
    struct plain_ranges opened, present;
};

int plain_open(struct plain_session *session, int32_t days, const int16_t *floors, const int16_t *ceilings, const int16_t *rises, int32_t lowest,
               int32_t highest, int32_t first);
int plain_cut(struct plain_session *session, int32_t kind, int32_t day, int32_t value, uint16_t *changed, int32_t *count);

/* The same, tuned by hand. */
int tuned_open(struct plain_session *session, int32_t days, const int16_t *floors, const int16_t *ceilings, const int16_t *rises, int32_t lowest,
               int32_t highest, int32_t first);
int tuned_cut(struct plain_session *session, int32_t kind, int32_t day, int32_t value, uint16_t *changed, int32_t *count);

#endif

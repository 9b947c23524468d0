/* Every call that is measured: each entry, each kind of cut, sheets beside single cuts, and the refusals of openings, cuts and sheets. */
#ifndef CALLS_H
#define CALLS_H

#include "sheets.h"

enum entry { OPEN, CUT, CUT_SHEET, SINGLE_CUTS, READ, WRITE_DAY, WRITE_TOTAL, INSPECT, READ_FILE, WRITE_FILE, SESSION_BYTES, NOTHING };

struct call {
    const char *name;
    enum entry entry;
    int32_t kind; /* of a cut; of a sheet and of single cuts how many, or EACH_DAY */
    int answer;
};

enum { CALLS = 38, LOADS = 5, EVERY_DAY = CALLS - 2, SIZES = 4, EACH_DAY = -1 };

/* The first are the loads: an opening and the four kinds of cut, accepted. The calls that are made on the six profiles end with one of nothing; behind them is
 * the cut that changes every day, for the other five, and one of nothing. */
extern const struct call calls[CALLS];

/* The calls that are made on a profile, up to one of nothing. */
const struct call *calls_of(size_t which);

/* The day counts of the tables. */
extern const int32_t sizes[SIZES];

/* Makes the sessions and the arguments ready. */
void prepare(const struct call *call);

/* Whether this side has the call: all three have the loads, plain C what it refuses as the library does. */
bool has(enum side side, const struct call *call);

/* The call alone, with nothing of its own besides. */
int make(enum side side, const struct call *call);

/* The answer is the one that was asked for, and the sessions are as they have to be; all sides that have the call made it. */
void check(const struct call *call);

#endif

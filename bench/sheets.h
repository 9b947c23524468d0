/* A sheet of cuts on the library, and the same cuts by single calls. */
#ifndef SHEETS_H
#define SHEETS_H

#include "sides.h"

/* The bytes of the lists that are lent. */
struct sheet {
    size_t cuts, answers, changed;
};

/* Draws up a cut for each day of the session that was kept. Each takes an eighth of a range, as the cuts before it leave that: of a day's, now and then of the
 * total's. The session is as it was kept afterwards. */
void draw_up_sheet(void);

/* A sheet of so many of these cuts, from the first on. */
struct sheet sheet_of(int32_t cuts);

/* The sheet's answer; of single calls 0 where none is refused. */
int make_sheet(struct sheet sheet);
int make_singles(int32_t cuts);

/* What was made last left the session of single calls; where it was a sheet, it gave their answers, and the number of days that differ. */
void compare_sheet(int32_t cuts, bool was_sheet);

#endif

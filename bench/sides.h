/* The library, plain C and tuned C, each with a session of one profile. */
#ifndef SIDES_H
#define SIDES_H

#include "profiles.h"

#include <stdbool.h>

enum side { LIBRARY, PLAIN, TUNED, SIDES };

/* The list lent for changed days has that many bytes. */
struct cut {
    int32_t kind, day, value;
    size_t list_bytes;
};

extern const char *const side_names[SIDES];
extern struct profile profile;

/* What memcpy takes hangs on where the bytes lie. The library's session and the stack of a counted call start at a page, so that all runs count the same. */
enum { PAGE = 4096 };
extern uint8_t session[CLOVERDRUM_SESSION_BYTES] __attribute__((aligned(PAGE)));

/* What is being done, for fail: it prints what is wrong, and ends the program with 1. */
extern const char *doing;
void fail(const char *text);

/* Opens a profile on all sides, and keeps the sessions. */
void open_sides(size_t which, int32_t days);

/* The sessions that were kept. */
void restore(void);

/* Sessions that hold nothing of a profile, for an opening to write. */
void scramble(void);

int open_on(enum side side, const struct profile *given, size_t floors_bytes);
int cut_on(enum side side, struct cut cut);

/* A cut of this kind, of the sessions that were kept, at the middle of the range: the middle day's or the total's. */
struct cut middle_cut(int32_t kind);

/* The profile's own, which changes every day. */
struct cut cut_of_every_day(void);

/* A cut that leaves no schedule: the total's floor above its ceiling. */
struct cut last_cut(void);

/* The middle of the range that was kept of the middle day, and of the total. */
int32_t middle_point(void);
int32_t middle_total(void);

/* The number of days that the library's last cut changed. */
cloverdrum_size changed_days(void);

/* All sides hold the same ranges, and the last call changed the same days; where it was a cut, it tightened something. */
void compare(bool was_cut);

/* Whether the library's session is as it was kept. */
bool unchanged(void);

#endif

#include "sides.h"

#include "plain.h"

#include <stdio.h>
#include <stdlib.h>
#include <string.h>

enum { OTHER_BYTE = 0x5a };

/* What cloverdrum_read says. */
struct ranges {
    int16_t floors[DAYS], ceilings[DAYS];
    int32_t least, most;
    uint8_t spent;
};

const char *const side_names[SIDES] = {"library", "plain", "tuned"};

const char *doing;
struct profile profile;
uint8_t session[CLOVERDRUM_SESSION_BYTES];

static uint8_t kept[CLOVERDRUM_SESSION_BYTES];
static struct plain_session plain[SIDES], plain_kept[SIDES];
static struct ranges opened;

static uint8_t changed[CLOVERDRUM_LIST_BYTES];
static uint16_t plain_changed[SIDES][DAYS];
static cloverdrum_size count;
static int32_t plain_count[SIDES];

void fail(const char *text)
{
    fprintf(stderr, "bench: %s, %d days, %s: %s\n", profile.name, (int)profile.days, doing, text);
    exit(1);
}

int open_on(enum side side, const struct profile *given, size_t floors_bytes)
{
    size_t n = 2 * (size_t)given->days;
    if (side == PLAIN)
        return plain_open(&plain[side], given->days, given->floors, given->ceilings, given->rises, given->lowest, given->highest, given->first);
    if (side == TUNED)
        return tuned_open(&plain[side], given->days, given->floors, given->ceilings, given->rises, given->lowest, given->highest, given->first);
    return cloverdrum_open(session, sizeof session, (size_t)given->days, (const uint8_t *)given->floors, floors_bytes, (const uint8_t *)given->ceilings, n,
                           (const uint8_t *)given->rises, n - 2, given->lowest, given->highest, (size_t)given->first);
}

int cut_on(enum side side, struct cut cut)
{
    if (side == PLAIN)
        return plain_cut(&plain[side], cut.kind, cut.day, cut.value, plain_changed[side], &plain_count[side]);
    if (side == TUNED)
        return tuned_cut(&plain[side], cut.kind, cut.day, cut.value, plain_changed[side], &plain_count[side]);
    return cloverdrum_cut(session, sizeof session, (size_t)cut.kind, (size_t)cut.day, cut.value, changed, cut.list_bytes, &count);
}

static void read_library(struct ranges *ranges)
{
    if (cloverdrum_read(session, sizeof session, (uint8_t *)ranges->floors, sizeof ranges->floors, (uint8_t *)ranges->ceilings, sizeof ranges->ceilings,
                        &ranges->least, &ranges->most, &ranges->spent) != 0)
        fail("the ranges can't be read");
}

void restore(void)
{
    memcpy(session, kept, sizeof session);
    memcpy(plain, plain_kept, sizeof plain);
    count = 0;
    memset(plain_count, 0, sizeof plain_count);
}

void scramble(void)
{
    memset(session, OTHER_BYTE, sizeof session);
    memset(plain, OTHER_BYTE, sizeof plain);
}

bool unchanged(void)
{
    return memcmp(session, kept, sizeof session) == 0;
}

void open_sides(size_t which, int32_t days)
{
    doing = "opening on all sides";
    fill_profile(&profile, which, days);
    scramble();
    for (enum side side = LIBRARY; side < SIDES; side++)
        if (open_on(side, &profile, 2 * (size_t)days) != 0)
            fail("the profile is refused");
    memcpy(kept, session, sizeof kept);
    memcpy(plain_kept, plain, sizeof plain_kept);
    read_library(&opened);
}

/* ---- cuts */

int32_t middle_point(void)
{
    int32_t day = profile.days / 2;
    return opened.floors[day] + (opened.ceilings[day] - opened.floors[day]) / 2;
}

int32_t middle_total(void)
{
    return opened.least + (opened.most - opened.least) / 2;
}

struct cut middle_cut(int32_t kind)
{
    bool is_day = kind == CLOVERDRUM_DAY_FLOOR || kind == CLOVERDRUM_DAY_CEILING;
    struct cut cut = {kind, is_day ? profile.days / 2 : 0, is_day ? middle_point() : middle_total(), 2 * (size_t)profile.days};
    return cut;
}

struct cut cut_of_every_day(void)
{
    struct cut cut = {profile.cut.kind, profile.cut.day, profile.cut.value, 2 * (size_t)profile.days};
    return cut;
}

struct cut last_cut(void)
{
    struct cut cut = {CLOVERDRUM_TOTAL_FLOOR, 0, opened.most + 1, 2 * (size_t)profile.days};
    return cut;
}

/* ---- comparison */

static void compare_ranges(const struct ranges *now, const struct plain_session *other)
{
    for (int32_t i = 0; i < profile.days; i++)
        if (now->floors[i] != other->present.floors[i] + other->shifts[i] || now->ceilings[i] != other->present.ceilings[i] + other->shifts[i])
            fail("the ranges differ");
    if (now->least != other->present.least + other->shift_sum || now->most != other->present.most + other->shift_sum || now->spent != other->spent)
        fail("the totals differ");
}

/* The library lists the same days in the same order. */
static void compare_changed(enum side side)
{
    if ((int32_t)count != plain_count[side])
        fail("the numbers of changed days differ");
    for (size_t k = 0; k < count; k++)
        if (changed[2 * k] + 256u * changed[2 * k + 1] != plain_changed[side][k])
            fail("the changed days differ");
}

cloverdrum_size changed_days(void)
{
    return count;
}

void compare(bool was_cut)
{
    struct ranges now;
    read_library(&now);
    for (enum side side = PLAIN; side < SIDES; side++) {
        compare_ranges(&now, &plain[side]);
        compare_changed(side);
    }
    if (was_cut && !now.spent && count == 0 && now.least == opened.least && now.most == opened.most)
        fail("a cut tightened nothing");
}

#include "profiles.h"

static int32_t smaller(int32_t a, int32_t b)
{
    return a < b ? a : b;
}

static int32_t larger(int32_t a, int32_t b)
{
    return a > b ? a : b;
}

/* The total's range reaches from the sum by this much a day to either side. */
static void total_around(struct profile *profile, int32_t sum, int32_t reach)
{
    profile->lowest = sum - reach * profile->days;
    profile->highest = sum + reach * profile->days;
}

/* Rounds are document 01's: turns of `while (delta > margin)` in plain.c, counted with a copy that counts them; drops are days that leave the window. */

/* ---- even: ranges of 3,000 points, each a point higher than the one before, rises from -3 to 3, and a total in the middle that moves many floors and
 * ceilings. At 512 days an opening makes 226 rounds in each pass, and no drop. */

enum { EVEN_WIDTH = 3000, EVEN_STEEPEST = 3, EVEN_REACH = 100 };

static void fill_even(struct profile *profile)
{
    int32_t middle = 0;
    for (int32_t i = 0; i < profile->days; i++) {
        profile->floors[i] = (int16_t)i;
        profile->ceilings[i] = (int16_t)(EVEN_WIDTH + i);
        profile->rises[i] = (int16_t)(i % (2 * EVEN_STEEPEST + 1) - EVEN_STEEPEST);
        middle += EVEN_WIDTH / 2 + i;
    }
    total_around(profile, middle, EVEN_REACH);
}

/* ---- ramp: a ferment, pitched cool, with a free rise, a hold, a rest two degrees warmer and a crash to the cold. It may not fall before the crash, and then
 * twice as fast as it does. Both bounds of the total move days: at 512 days 56 rounds and 443 drops for the ceilings, 52 and 474 for the floors. */

enum { WHOLE = 100, RAMP_WIDTH = 300, RAMP_REACH = 5, RAMP_FALL = 2 };

/* Where the line has its corners, in hundredths of the days, and the points there. */
static const struct {
    int32_t part, point;
} corners[] = {{0, 800}, {8, 900}, {16, 1200}, {74, 1200}, {78, 1400}, {86, 1400}, {94, 200}, {WHOLE, 100}};

static int32_t ferment(int32_t day, int32_t days)
{
    int32_t part = WHOLE * day, last = days - 1;
    size_t k = 0;
    while (part > corners[k + 1].part * last)
        k++;
    int32_t run = (corners[k + 1].part - corners[k].part) * last;
    return corners[k].point + (corners[k + 1].point - corners[k].point) * (part - corners[k].part * last) / run;
}

static void fill_ramp(struct profile *profile)
{
    int32_t sum = 0;
    for (int32_t i = 0; i < profile->days; i++) {
        int32_t point = ferment(i, profile->days);
        profile->floors[i] = (int16_t)(point - RAMP_WIDTH / 2);
        profile->ceilings[i] = (int16_t)(point + RAMP_WIDTH / 2);
        if (i + 1 < profile->days)
            profile->rises[i] = (int16_t)smaller(0, RAMP_FALL * (ferment(i + 1, profile->days) - point));
        sum += point;
    }
    total_around(profile, sum, RAMP_REACH);
}

/* ---- random: a schedule is drawn first; ranges, least rises and the total's range are laid around it. At 512 days 199 and 194 rounds, and no drop. */

enum { RANDOM_LOWEST = 500, RANDOM_HIGHEST = 2500, RANDOM_STEP = 200, RANDOM_NEAR = 500, RANDOM_FAR = 1500, RANDOM_CLIMB = 700, RANDOM_REACH = 20 };

static uint32_t state;

/* From 0 to most, by a linear congruence (Numerical Recipes); its high half is used. */
static int32_t draw(int32_t most)
{
    state = state * 1664525u + 1013904223u;
    return (int32_t)((state >> 16) % (uint32_t)(most + 1));
}

/* Least rises are below the schedule's steps by so much that they add up to about the same climb at every day count. */
static void fill_random(struct profile *profile)
{
    int32_t sum = 0, point = (RANDOM_LOWEST + RANDOM_HIGHEST) / 2;
    state = 1;
    for (int32_t i = 0; i < profile->days; i++) {
        int32_t next = larger(RANDOM_LOWEST, smaller(RANDOM_HIGHEST, point + draw(2 * RANDOM_STEP) - RANDOM_STEP));
        profile->floors[i] = (int16_t)(point - RANDOM_NEAR - draw(RANDOM_FAR - RANDOM_NEAR));
        profile->ceilings[i] = (int16_t)(point + RANDOM_NEAR + draw(RANDOM_FAR - RANDOM_NEAR));
        profile->rises[i] = (int16_t)(next - point - draw(2 * RANDOM_CLIMB / profile->days));
        sum += point;
        point = next;
    }
    total_around(profile, sum, RANDOM_REACH);
}

/* ---- stairs: with the rises taken away, floors climb by 200 points a day, and from the first day to the next by 400, which is over the margin of 300. So each
 * ceiling is lowered to a later floor, which drops that day, and then once more. Counted at 16, 64, 256 and 512 days, in the pass of the ceilings: 2n - 1
 * rounds and n - 1 drops at opening, 2n - 5 rounds where the middle day's floor is cut, 2n - 2 where the total's ceiling is; the other cuts make none, and
 * nor does the pass of the floors. */

enum { STAIRS_FLOOR = 500, STAIRS_CEILING = 3500, STAIRS_STEP = 200, STAIRS_MARGIN = 300, STAIRS_LEAST = 50 };

static void fill_stairs(struct profile *profile)
{
    int32_t bottom = 0;
    for (int32_t i = 0; i < profile->days; i++) {
        profile->floors[i] = (int16_t)(i == 0 ? STAIRS_FLOOR - STAIRS_STEP : STAIRS_FLOOR);
        profile->ceilings[i] = STAIRS_CEILING;
        profile->rises[i] = -STAIRS_STEP;
        bottom += profile->floors[i];
    }
    profile->lowest = bottom + STAIRS_LEAST;
    profile->highest = bottom + STAIRS_MARGIN;
}

/* ---- loose: the ramp, with a total that may be anything, so that an opening makes no round. */

static void fill_loose(struct profile *profile)
{
    fill_ramp(profile);
    profile->lowest = CLOVERDRUM_LOWEST_TOTAL;
    profile->highest = CLOVERDRUM_HIGHEST_TOTAL;
}

/* ---- filling: the ramp, while the tank fills for the first eighth of its days, which do not count. At 512 days 84 rounds and 116 drops for the ceilings, 78
 * and 410 for the floors, over the counted days. */

enum { FILLING = 8 };

static void fill_filling(struct profile *profile)
{
    int32_t sum = 0;
    fill_ramp(profile);
    profile->first = profile->days / FILLING;
    for (int32_t i = profile->first; i < profile->days; i++)
        sum += ferment(i, profile->days);
    total_around(profile, sum, RAMP_REACH);
}

/* ---- equal, falling, rising, mixed, late: a cut takes from every day's range. All days lose the same, or each less than the day before it, or each more;
 * or the losses are different numbers, shuffled; or all are the same but the last day's, which is a point more. On *mixed* the rises leave each day free of its
 * neighbours, and the cut of the total's ceiling makes a round for each day; on the others the total does not bind, and there is no round. */

enum { LOSSES = 4500, EQUAL_LOSS = 1000, MIXED_LOSSES = 1536, MIXED_MARGIN = 400 };

static void fill_flat(struct profile *profile)
{
    for (int32_t i = 0; i < profile->days; i++) {
        profile->floors[i] = CLOVERDRUM_LOWEST_POINT;
        profile->ceilings[i] = CLOVERDRUM_HIGHEST_POINT;
        profile->rises[i] = 0;
    }
    profile->lowest = CLOVERDRUM_LOWEST_TOTAL;
    profile->highest = CLOVERDRUM_HIGHEST_TOTAL;
}

static void cut_by(struct profile *profile, int32_t kind, int32_t day, int32_t value)
{
    profile->cut.kind = kind;
    profile->cut.day = day;
    profile->cut.value = value;
}

static void fill_equal(struct profile *profile)
{
    fill_flat(profile);
    cut_by(profile, CLOVERDRUM_DAY_FLOOR, 0, CLOVERDRUM_LOWEST_POINT + EQUAL_LOSS);
}

/* Floors climb, and the first day's is cut to above the last. */
static void fill_falling(struct profile *profile)
{
    int32_t step = LOSSES / profile->days;
    fill_flat(profile);
    for (int32_t i = 0; i < profile->days; i++)
        profile->floors[i] = (int16_t)(CLOVERDRUM_LOWEST_POINT + i * step);
    cut_by(profile, CLOVERDRUM_DAY_FLOOR, 0, CLOVERDRUM_LOWEST_POINT + profile->days * step);
}

/* Ceilings climb, and the last day's is cut to below the first. */
static void fill_rising(struct profile *profile)
{
    int32_t step = LOSSES / profile->days, last = profile->days - 1;
    fill_flat(profile);
    for (int32_t i = 0; i < profile->days; i++)
        profile->ceilings[i] = (int16_t)(CLOVERDRUM_HIGHEST_POINT - (last - i) * step);
    cut_by(profile, CLOVERDRUM_DAY_CEILING, last, CLOVERDRUM_HIGHEST_POINT - profile->days * step);
}

/* A ceiling is above its floor by the margin and a loss, and the cut leaves the margin. */
static void fill_mixed(struct profile *profile)
{
    int32_t step = MIXED_LOSSES / profile->days;
    fill_flat(profile);
    state = 1;
    for (int32_t i = 0; i < profile->days; i++) {
        int32_t place = draw(i);
        profile->floors[i] = 0;
        profile->ceilings[i] = profile->ceilings[place];
        profile->ceilings[place] = (int16_t)(MIXED_MARGIN + (i + 1) * step);
        profile->rises[i] = CLOVERDRUM_LOWEST_RISE;
    }
    cut_by(profile, CLOVERDRUM_TOTAL_CEILING, 0, MIXED_MARGIN);
}

/* The last ceiling is a point above the others, and is cut. */
static void fill_late(struct profile *profile)
{
    int32_t last = profile->days - 1;
    fill_flat(profile);
    for (int32_t i = 0; i < last; i++)
        profile->ceilings[i]--;
    cut_by(profile, CLOVERDRUM_DAY_CEILING, last, CLOVERDRUM_HIGHEST_POINT - 1 - EQUAL_LOSS);
}

void fill_profile(struct profile *profile, size_t which, int32_t days)
{
    static const struct {
        const char *name;
        void (*fill)(struct profile *);
    } profiles[PROFILES + ORDERS] = {
        {"even", fill_even},   {"ramp", fill_ramp},       {"random", fill_random}, {"stairs", fill_stairs}, {"loose", fill_loose}, {"filling", fill_filling},
        {"equal", fill_equal}, {"falling", fill_falling}, {"rising", fill_rising}, {"mixed", fill_mixed},   {"late", fill_late},
    };
    profile->name = profiles[which].name;
    profile->days = days;
    profile->first = 0;
    profiles[which].fill(profile);
}

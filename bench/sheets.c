#include "sheets.h"

#include <string.h>

enum { CUT_BYTES = 8, ANSWER_BYTES = 4, POINT_BYTES = 2, PART = 8, STEP = 37 };

/* Room for a cut more than a sheet may have. */
static uint8_t cuts[CLOVERDRUM_CUTS_BYTES + CUT_BYTES], answers[CLOVERDRUM_ANSWERS_BYTES], changed[CLOVERDRUM_LIST_BYTES];
static cloverdrum_size count;

/* The cuts that were drawn up, how many days each changes, and the sessions after none, after the first and after all: newlib's memcpy wants them aligned where
 * an access that is not is a fault. */
static struct cut drawn[DAYS];
static cloverdrum_size singles[DAYS];
static struct {
    uint8_t bytes[CLOVERDRUM_SESSION_BYTES] __attribute__((aligned(8)));
} after[3];

struct ends {
    int16_t floors[DAYS], ceilings[DAYS];
    int32_t least, most;
};

static struct ends kept;

static void read_ends(struct ends *ends)
{
    uint8_t spent;
    if (cloverdrum_read(session, sizeof session, (uint8_t *)ends->floors, sizeof ends->floors, (uint8_t *)ends->ceilings, sizeof ends->ceilings, &ends->least,
                        &ends->most, &spent) != 0 ||
        spent)
        fail("the ranges can't be read");
}

/* ---- drawing up */

/* The days in another order; their number has no factor in common with the step. */
static struct cut cut_in_turn(int32_t turn)
{
    static const int32_t kinds[] = {CLOVERDRUM_DAY_FLOOR,   CLOVERDRUM_DAY_CEILING, CLOVERDRUM_DAY_FLOOR,   CLOVERDRUM_DAY_CEILING,
                                    CLOVERDRUM_DAY_CEILING, CLOVERDRUM_DAY_FLOOR,   CLOVERDRUM_TOTAL_FLOOR, CLOVERDRUM_TOTAL_CEILING};
    struct cut cut = {kinds[(size_t)turn % (sizeof kinds / sizeof *kinds)], 0, 0, POINT_BYTES * (size_t)profile.days};
    bool is_day = cut.kind <= CLOVERDRUM_DAY_CEILING, is_floor = cut.kind == CLOVERDRUM_DAY_FLOOR || cut.kind == CLOVERDRUM_TOTAL_FLOOR;
    struct ends now;
    read_ends(&now);
    cut.day = is_day ? STEP * turn % profile.days : 0;
    int32_t low = is_day ? now.floors[cut.day] : now.least, high = is_day ? now.ceilings[cut.day] : now.most;
    int32_t taken = (high - low + PART - 1) / PART;
    cut.value = is_floor ? low + taken : high - taken;
    return cut;
}

static void put(uint8_t *bytes, size_t place, uint32_t number)
{
    bytes[POINT_BYTES * place] = (uint8_t)number;
    bytes[POINT_BYTES * place + 1] = (uint8_t)(number >> 8);
}

static void put_cut(uint8_t *bytes, struct cut cut)
{
    put(bytes, 0, (uint32_t)cut.kind);
    put(bytes, 1, (uint32_t)cut.day);
    put(bytes, 2, (uint32_t)cut.value);
    put(bytes, 3, (uint32_t)cut.value >> 16);
}

void draw_up_sheet(void)
{
    static const char *name;
    static int32_t days;
    if (name == profile.name && days == profile.days)
        return;
    name = profile.name;
    days = profile.days;
    restore();
    read_ends(&kept);
    memcpy(after[0].bytes, session, sizeof session);
    for (int32_t turn = 0; turn < days; turn++) {
        struct cut cut = drawn[turn] = cut_in_turn(turn);
        put_cut(cuts + CUT_BYTES * turn, cut);
        if (cloverdrum_cut(session, sizeof session, (size_t)cut.kind, (size_t)cut.day, cut.value, changed, cut.list_bytes, &singles[turn]) != 0)
            fail("a cut of the sheet is refused");
        memcpy(after[turn == 0 ? 1 : 2].bytes, session, sizeof session);
    }
    restore();
}

/* ---- calls */

struct sheet sheet_of(int32_t many)
{
    struct sheet sheet = {CUT_BYTES * (size_t)many, ANSWER_BYTES * (size_t)many, POINT_BYTES * (size_t)profile.days};
    return sheet;
}

int make_sheet(struct sheet sheet)
{
    return cloverdrum_cut_sheet(session, sizeof session, cuts, sheet.cuts, answers, sheet.answers, changed, sheet.changed, &count);
}

int make_singles(int32_t many)
{
    int answer = 0;
    for (int32_t k = 0; k < many; k++)
        answer |= cloverdrum_cut(session, sizeof session, (size_t)drawn[k].kind, (size_t)drawn[k].day, drawn[k].value, changed, drawn[k].list_bytes, &count);
    return answer;
}

/* ---- comparison */

static void compare_answers(int32_t many)
{
    uint8_t expected[ANSWER_BYTES];
    for (int32_t k = 0; k < many; k++) {
        put(expected, 0, CLOVERDRUM_OK);
        put(expected, 1, (uint32_t)singles[k]);
        if (memcmp(answers + ANSWER_BYTES * k, expected, sizeof expected) != 0)
            fail("an answer of the sheet differs");
    }
}

void compare_sheet(int32_t many, bool was_sheet)
{
    cloverdrum_size differ = 0;
    struct ends now;
    if (memcmp(session, after[many < 2 ? many : 2].bytes, sizeof session) != 0)
        fail("the cuts end in another session");
    if (!was_sheet)
        return;
    compare_answers(many);
    read_ends(&now);
    for (int32_t i = 0; i < profile.days; i++)
        differ += now.floors[i] != kept.floors[i] || now.ceilings[i] != kept.ceilings[i];
    if (count != differ)
        fail("the number of days that differ is another");
}

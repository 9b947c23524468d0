#include "calls.h"

const struct call calls[CALLS] = {
    {"open", OPEN, 0, CLOVERDRUM_OK},
    {"day_floor", CUT, CLOVERDRUM_DAY_FLOOR, CLOVERDRUM_OK},
    {"day_ceiling", CUT, CLOVERDRUM_DAY_CEILING, CLOVERDRUM_OK},
    {"total_floor", CUT, CLOVERDRUM_TOTAL_FLOOR, CLOVERDRUM_OK},
    {"total_ceiling", CUT, CLOVERDRUM_TOTAL_CEILING, CLOVERDRUM_OK},
    {"sheet_of_none", CUT_SHEET, 0, CLOVERDRUM_OK},
    {"sheet_of_one", CUT_SHEET, 1, CLOVERDRUM_OK},
    {"single", SINGLE_CUTS, 1, CLOVERDRUM_OK},
    {"sheet", CUT_SHEET, EACH_DAY, CLOVERDRUM_OK},
    {"singles", SINGLE_CUTS, EACH_DAY, CLOVERDRUM_OK},
    {"read", READ, 0, CLOVERDRUM_OK},
    {"write_day", WRITE_DAY, 0, CLOVERDRUM_OK},
    {"write_total", WRITE_TOTAL, 0, CLOVERDRUM_OK},
    {"inspect", INSPECT, 0, CLOVERDRUM_OK},
    {"read_file", READ_FILE, 0, CLOVERDRUM_OK},
    {"write_file", WRITE_FILE, 0, CLOVERDRUM_OK},
    {"session_bytes", SESSION_BYTES, 0, CLOVERDRUM_OK},
    {"cut_12", CUT, CLOVERDRUM_DAY_FLOOR, CLOVERDRUM_BAD_KIND},
    {"cut_7", CUT, CLOVERDRUM_DAY_FLOOR, CLOVERDRUM_BAD_DAY},
    {"cut_3", CUT, CLOVERDRUM_DAY_FLOOR, CLOVERDRUM_BAD_POINT},
    {"cut_5", CUT, CLOVERDRUM_TOTAL_CEILING, CLOVERDRUM_BAD_TOTAL},
    {"cut_2", CUT, CLOVERDRUM_DAY_FLOOR, CLOVERDRUM_BAD_LENGTH},
    {"cut_9", CUT, CLOVERDRUM_DAY_FLOOR, CLOVERDRUM_SPENT},
    {"cut_8", CUT, CLOVERDRUM_TOTAL_FLOOR, CLOVERDRUM_NO_SCHEDULE},
    {"sheet_1", CUT_SHEET, EACH_DAY, CLOVERDRUM_BAD_COUNT},
    {"sheet_14", CUT_SHEET, EACH_DAY, CLOVERDRUM_SHORT_ANSWERS},
    {"sheet_2", CUT_SHEET, EACH_DAY, CLOVERDRUM_BAD_LENGTH},
    {"open_1", OPEN, 0, CLOVERDRUM_BAD_COUNT},
    {"open_2", OPEN, 0, CLOVERDRUM_BAD_LENGTH},
    {"open_3", OPEN, 0, CLOVERDRUM_BAD_POINT},
    {"open_4", OPEN, 0, CLOVERDRUM_BAD_RISE},
    {"open_5", OPEN, 0, CLOVERDRUM_BAD_TOTAL},
    {"open_6", OPEN, 0, CLOVERDRUM_BAD_RANGE},
    {"open_13", OPEN, 0, CLOVERDRUM_BAD_FIRST_DAY},
    {"open_8", OPEN, 0, CLOVERDRUM_NO_SCHEDULE},
    {"nothing", NOTHING, 0, CLOVERDRUM_OK},
    {"every_day", CUT, 0, CLOVERDRUM_OK},
    {"nothing", NOTHING, 0, CLOVERDRUM_OK},
};

const int32_t sizes[SIZES] = {16, 64, 256, 512};

const struct call *calls_of(size_t which)
{
    return which < PROFILES ? calls : &calls[EVERY_DAY];
}

enum { UNKNOWN_KIND = CLOVERDRUM_TOTAL_CEILING + 1, POINT_BYTES = 2, CUT_BYTES = 8, DAYS_OFFSET = 18, DAY_BYTES = 6 };

/* The arguments of the next call, and what came back. */
static struct profile given;
static struct cut cut;
static int32_t cuts_made;
static struct sheet sheet;
static size_t floors_bytes;
static int32_t point, total;
static int answers[SIDES];
static cloverdrum_size rule;
static uint8_t floors[CLOVERDRUM_LIST_BYTES], ceilings[CLOVERDRUM_LIST_BYTES], rises[CLOVERDRUM_LIST_BYTES], schedule[CLOVERDRUM_LIST_BYTES];
static uint8_t cuts[CLOVERDRUM_CUTS_BYTES], file[CLOVERDRUM_FILE_BYTES];

/* ---- arguments. What an opening is refused for stands at the last place. */

static void prepare_opening(int answer)
{
    int32_t last = profile.days - 1;
    given = profile;
    floors_bytes = POINT_BYTES * (size_t)profile.days;
    switch (answer) {
    case CLOVERDRUM_OK: scramble(); break;
    case CLOVERDRUM_BAD_COUNT: given.days = DAYS + 1; break;
    case CLOVERDRUM_BAD_LENGTH: floors_bytes -= POINT_BYTES; break;
    case CLOVERDRUM_BAD_POINT: given.ceilings[last] = CLOVERDRUM_HIGHEST_POINT + 1; break;
    case CLOVERDRUM_BAD_RISE: given.rises[last - 1] = CLOVERDRUM_HIGHEST_RISE + 1; break;
    case CLOVERDRUM_BAD_TOTAL: given.highest = CLOVERDRUM_HIGHEST_TOTAL + 1; break;
    case CLOVERDRUM_BAD_RANGE: given.ceilings[last] = (int16_t)(given.floors[last] - 1); break;
    case CLOVERDRUM_BAD_FIRST_DAY: given.first = given.days; break;
    default: given.lowest = given.highest = CLOVERDRUM_HIGHEST_TOTAL; break;
    }
}

static void spend(void)
{
    for (enum side side = LIBRARY; side < SIDES; side++)
        if (cut_on(side, last_cut()) != CLOVERDRUM_NO_SCHEDULE)
            fail("a session is not spent");
}

static void prepare_cut(const struct call *call)
{
    cut = call == &calls[EVERY_DAY] ? cut_of_every_day() : middle_cut(call->kind);
    switch (call->answer) {
    case CLOVERDRUM_BAD_KIND: cut.kind = UNKNOWN_KIND; break;
    case CLOVERDRUM_BAD_DAY: cut.day = profile.days; break;
    case CLOVERDRUM_BAD_POINT: cut.value = CLOVERDRUM_HIGHEST_POINT + 1; break;
    case CLOVERDRUM_BAD_TOTAL: cut.value = CLOVERDRUM_HIGHEST_TOTAL + 1; break;
    case CLOVERDRUM_BAD_LENGTH: cut.list_bytes -= POINT_BYTES; break;
    case CLOVERDRUM_SPENT: spend(); break;
    case CLOVERDRUM_NO_SCHEDULE: cut = last_cut(); break;
    default: break;
    }
}

static void prepare_sheet(const struct call *call)
{
    draw_up_sheet();
    cuts_made = call->kind == EACH_DAY ? profile.days : call->kind;
    sheet = sheet_of(cuts_made);
    switch (call->answer) {
    case CLOVERDRUM_BAD_COUNT: sheet.cuts = CLOVERDRUM_CUTS_BYTES + CUT_BYTES; break;
    case CLOVERDRUM_SHORT_ANSWERS: sheet.answers--; break;
    case CLOVERDRUM_BAD_LENGTH: sheet.changed--; break;
    default: break;
    }
}

/* A schedule and a file are there to be inspected and read. */
void prepare(const struct call *call)
{
    static const struct call writes_schedule = {"", WRITE_TOTAL, 0, CLOVERDRUM_OK}, writes_file = {"", WRITE_FILE, 0, CLOVERDRUM_OK};
    doing = call->name;
    restore();
    point = middle_point();
    total = middle_total();
    if (make(LIBRARY, &writes_schedule) != 0 || make(LIBRARY, &writes_file) != 0)
        fail("a call is refused");
    if (call->entry == OPEN)
        prepare_opening(call->answer);
    if (call->entry == CUT)
        prepare_cut(call);
    if (call->entry == CUT_SHEET || call->entry == SINGLE_CUTS)
        prepare_sheet(call);
}

/* ---- calls */

/* The file has a cut for each day. */
static int make_file_entry(bool writes)
{
    size_t n = (size_t)profile.days, length = POINT_BYTES * n, cuts_length = CUT_BYTES * n;
    cloverdrum_size days, found, first;
    int32_t least, most;
    if (writes)
        return cloverdrum_write_file(n, (const uint8_t *)profile.floors, length, (const uint8_t *)profile.ceilings, length,
                                     (const uint8_t *)profile.rises, length - POINT_BYTES, profile.lowest, profile.highest, (size_t)profile.first, cuts,
                                     cuts_length, file, sizeof file, &found);
    return cloverdrum_read_file(file, DAYS_OFFSET + (DAY_BYTES + CUT_BYTES) * n, floors, length, ceilings, length, rises, length - POINT_BYTES, cuts,
                                cuts_length, &days, &found, &least, &most, &first);
}

static int answer_of(enum side side, const struct call *call)
{
    size_t length = POINT_BYTES * (size_t)profile.days;
    cloverdrum_size place;
    int32_t least, most;
    uint8_t spent;
    switch (call->entry) {
    case OPEN: return open_on(side, &given, floors_bytes);
    case CUT: return cut_on(side, cut);
    case CUT_SHEET: return make_sheet(sheet);
    case SINGLE_CUTS: return make_singles(cuts_made);
    case READ: return cloverdrum_read(session, sizeof session, floors, length, ceilings, length, &least, &most, &spent);
    case WRITE_DAY: return cloverdrum_write_day(session, sizeof session, (size_t)profile.days / 2, point, schedule, length);
    case WRITE_TOTAL: return cloverdrum_write_total(session, sizeof session, total, schedule, length);
    case INSPECT: return cloverdrum_inspect(session, sizeof session, schedule, length, &rule, &place);
    case READ_FILE: return make_file_entry(false);
    case WRITE_FILE: return make_file_entry(true);
    case SESSION_BYTES: return cloverdrum_session_bytes() == sizeof session ? CLOVERDRUM_OK : CLOVERDRUM_BAD_LENGTH;
    default: return CLOVERDRUM_OK;
    }
}

int make(enum side side, const struct call *call)
{
    return answers[side] = answer_of(side, call);
}

bool has(enum side side, const struct call *call)
{
    bool is_load = call < calls + LOADS, plain_refuses = call->entry <= CUT && call->answer != CLOVERDRUM_BAD_LENGTH;
    return side == LIBRARY || is_load || plain_refuses;
}

void check(const struct call *call)
{
    bool is_cut = call->entry == CUT, is_taken = call->answer == CLOVERDRUM_OK;
    bool is_spent = is_cut && (call->answer == CLOVERDRUM_NO_SCHEDULE || call->answer == CLOVERDRUM_SPENT);
    for (enum side side = LIBRARY; side < SIDES; side++)
        if (has(side, call) && answers[side] != call->answer)
            fail("another answer");
    if (call->entry == INSPECT && rule != CLOVERDRUM_KEPT)
        fail("the written schedule is not kept");
    if (is_cut || (call->entry == OPEN && is_taken))
        compare(is_cut && is_taken);
    if (is_taken && (call->entry == CUT_SHEET || call->entry == SINGLE_CUTS))
        compare_sheet(cuts_made, call->entry == CUT_SHEET);
    if (call == &calls[EVERY_DAY] && changed_days() != (cloverdrum_size)profile.days)
        fail("a day is not changed");
    if (!is_taken && !is_spent && !unchanged())
        fail("a refusal changed the session");
}

/* What the library does at every number that the header names: a bound is taken and one past it is refused, a length fits exactly, each refusal, kind of
 * cut and rule comes back under its name; and changed days in the order that it says, of a cut and of a sheet. A difference is printed as a line with its
 * name, and the exit status is 1.
 *
 *     gcc -Iinclude -o target/header tests/header.c target/staticlib/libcloverdrum.a && target/header */
#include "cloverdrum.h"

#include <stdio.h>

/* The version is no number of the library's: a caller compares it in the preprocessor. */
#if CLOVERDRUM_VERSION / 100 != 2
#error "this program is for the session's bytes, the file and the entries of 2.00"
#endif

enum {
    POINT_BYTES = CLOVERDRUM_LIST_BYTES / CLOVERDRUM_MOST_DAYS,
    CUT_BYTES = CLOVERDRUM_CUTS_BYTES / CLOVERDRUM_MOST_CUTS,
    ANSWER_BYTES = CLOVERDRUM_ANSWERS_BYTES / CLOVERDRUM_MOST_CUTS
};

/* Room for one day and one cut more than a profile, a file and a sheet may have. */
static uint8_t floors[CLOVERDRUM_LIST_BYTES + POINT_BYTES], ceilings[CLOVERDRUM_LIST_BYTES + POINT_BYTES], rises[CLOVERDRUM_LIST_BYTES];
static uint8_t changed[CLOVERDRUM_LIST_BYTES], cuts[CLOVERDRUM_CUTS_BYTES + CUT_BYTES], file[CLOVERDRUM_FILE_BYTES + CUT_BYTES];
static uint8_t answers[CLOVERDRUM_ANSWERS_BYTES + ANSWER_BYTES], session[CLOVERDRUM_SESSION_BYTES];
static int differences;

static void same(const char *name, long library, long header)
{
    if (library == header)
        return;
    printf("%s: the library has %ld, the header %ld\n", name, library, header);
    differences++;
}

#define SAME(library, name) same(#name, (long)(library), (long)(name))
#define TAKEN(number, name) same(#name " is taken", (long)(number), CLOVERDRUM_OK)
#define REFUSED(number, refusal, name) same("past " #name ", " #refusal, (long)(number), refusal)

/* ---- lists */

/* An element has 2 bytes, the low byte first. */
static void put_point(uint8_t *list, size_t place, long point)
{
    list[POINT_BYTES * place] = (uint8_t)((unsigned long)point & 0xffu);
    list[POINT_BYTES * place + 1] = (uint8_t)((unsigned long)point >> 8 & 0xffu);
}

static long point_at(const uint8_t *list, size_t place)
{
    long bits = list[POINT_BYTES * place] + 256L * list[POINT_BYTES * place + 1];
    return bits < 32768 ? bits : bits - 65536;
}

/* That many days from floor to ceiling, the same rise between them. */
static void put_days(size_t days, long floor, long ceiling, long rise)
{
    size_t i;
    for (i = 0; i < days; i++) {
        put_point(floors, i, floor);
        put_point(ceilings, i, ceiling);
        if (i + 1 < days)
            put_point(rises, i, rise);
    }
}

/* Cuts of day 0's floor to 0, as many as there is room for. */
static void put_cuts(void)
{
    size_t at;
    for (at = 0; at < sizeof cuts; at++)
        cuts[at] = 0;
    for (at = 0; at < sizeof cuts; at += CUT_BYTES)
        put_point(cuts + at, 0, CLOVERDRUM_DAY_FLOOR);
}

static void put_cut(size_t place, long kind, long day, long value)
{
    uint8_t *cut = cuts + CUT_BYTES * place;
    put_point(cut, 0, kind);
    put_point(cut, 1, day);
    put_point(cut, 2, value);
    put_point(cut, 3, (long)((unsigned long)value >> 16));
}

/* ---- calls */

static unsigned open_counted(size_t days, long total_floor, long total_ceiling, cloverdrum_size first)
{
    return cloverdrum_open(session, sizeof session, days, floors, POINT_BYTES * days, ceilings, POINT_BYTES * days, rises, POINT_BYTES * (days - 1),
                           (int32_t)total_floor, (int32_t)total_ceiling, first);
}

static unsigned open_lists(size_t days, long total_floor, long total_ceiling)
{
    return open_counted(days, total_floor, total_ceiling, 0);
}

static unsigned open_days(size_t days, long floor, long ceiling, long rise)
{
    put_days(days, floor, ceiling, rise);
    return open_lists(days, CLOVERDRUM_LOWEST_TOTAL, CLOVERDRUM_HIGHEST_TOTAL);
}

static unsigned open_widest(size_t days, long rise)
{
    return open_days(days, CLOVERDRUM_LOWEST_POINT, CLOVERDRUM_HIGHEST_POINT, rise);
}

static unsigned open_total(long total_floor, long total_ceiling)
{
    put_days(1, 0, 0, 0);
    return open_lists(1, total_floor, total_ceiling);
}

static unsigned cut_room(size_t kind, size_t day, long value, size_t room)
{
    cloverdrum_size count;
    return cloverdrum_cut(session, sizeof session, kind, day, (int32_t)value, changed, room, &count);
}

static unsigned cut(size_t kind, size_t day, long value)
{
    return cut_room(kind, day, value, sizeof changed);
}

static unsigned cut_sheet(size_t cuts_length, size_t answers_length, size_t room, cloverdrum_size *count)
{
    return cloverdrum_cut_sheet(session, sizeof session, cuts, cuts_length, answers, answers_length, changed, room, count);
}

static unsigned write_day(size_t days, size_t day, long value)
{
    uint8_t schedule[CLOVERDRUM_LIST_BYTES];
    return cloverdrum_write_day(session, sizeof session, day, (int32_t)value, schedule, POINT_BYTES * days);
}

static unsigned write_counted(size_t days, cloverdrum_size first, size_t cuts_length, size_t file_length, cloverdrum_size *file_bytes)
{
    return cloverdrum_write_file(days, floors, POINT_BYTES * days, ceilings, POINT_BYTES * days, rises, POINT_BYTES * (days - 1), CLOVERDRUM_LOWEST_TOTAL,
                                 CLOVERDRUM_HIGHEST_TOTAL, first, cuts, cuts_length, file, file_length, file_bytes);
}

static unsigned write_file(size_t days, size_t cuts_length, size_t file_length, cloverdrum_size *file_bytes)
{
    return write_counted(days, 0, cuts_length, file_length, file_bytes);
}

static unsigned read_counted(size_t file_length, size_t list_length, size_t cuts_length, cloverdrum_size *first)
{
    cloverdrum_size days, count;
    int32_t total_floor, total_ceiling;
    return cloverdrum_read_file(file, file_length, floors, list_length, ceilings, list_length, rises, list_length, cuts, cuts_length, &days, &count,
                                &total_floor, &total_ceiling, first);
}

static unsigned read_file(size_t file_length, size_t list_length, size_t cuts_length)
{
    cloverdrum_size first;
    return read_counted(file_length, list_length, cuts_length, &first);
}

/* ---- bounds */

static void try_days(void)
{
    TAKEN(open_widest(CLOVERDRUM_MOST_DAYS, 0), CLOVERDRUM_MOST_DAYS);
    REFUSED(open_widest(CLOVERDRUM_MOST_DAYS + 1, 0), CLOVERDRUM_BAD_COUNT, CLOVERDRUM_MOST_DAYS);
}

static void try_point(void)
{
    TAKEN(open_days(1, CLOVERDRUM_LOWEST_POINT, CLOVERDRUM_LOWEST_POINT, 0), CLOVERDRUM_LOWEST_POINT);
    TAKEN(open_days(1, CLOVERDRUM_HIGHEST_POINT, CLOVERDRUM_HIGHEST_POINT, 0), CLOVERDRUM_HIGHEST_POINT);
    REFUSED(open_days(1, CLOVERDRUM_LOWEST_POINT - 1, 0, 0), CLOVERDRUM_BAD_POINT, CLOVERDRUM_LOWEST_POINT);
    REFUSED(open_days(1, 0, CLOVERDRUM_HIGHEST_POINT + 1, 0), CLOVERDRUM_BAD_POINT, CLOVERDRUM_HIGHEST_POINT);
}

static void try_rise(void)
{
    TAKEN(open_widest(2, CLOVERDRUM_LOWEST_RISE), CLOVERDRUM_LOWEST_RISE);
    TAKEN(open_widest(2, CLOVERDRUM_HIGHEST_RISE), CLOVERDRUM_HIGHEST_RISE);
    REFUSED(open_widest(2, CLOVERDRUM_LOWEST_RISE - 1), CLOVERDRUM_BAD_RISE, CLOVERDRUM_LOWEST_RISE);
    REFUSED(open_widest(2, CLOVERDRUM_HIGHEST_RISE + 1), CLOVERDRUM_BAD_RISE, CLOVERDRUM_HIGHEST_RISE);
}

static void try_total(void)
{
    TAKEN(open_total(CLOVERDRUM_LOWEST_TOTAL, 0), CLOVERDRUM_LOWEST_TOTAL);
    TAKEN(open_total(0, CLOVERDRUM_HIGHEST_TOTAL), CLOVERDRUM_HIGHEST_TOTAL);
    REFUSED(open_total(CLOVERDRUM_LOWEST_TOTAL - 1, 0), CLOVERDRUM_BAD_TOTAL, CLOVERDRUM_LOWEST_TOTAL);
    REFUSED(open_total(0, CLOVERDRUM_HIGHEST_TOTAL + 1), CLOVERDRUM_BAD_TOTAL, CLOVERDRUM_HIGHEST_TOTAL);
}

/* ---- the first counted day: 0 to n - 1, in an opening and in a file. Two days of 10 points count as one or as two. */

static void try_first_day(void)
{
    cloverdrum_size bytes, first;
    put_days(2, 10, 10, 0);
    SAME(open_counted(2, 20, 20, 0), CLOVERDRUM_OK);
    SAME(open_counted(2, 10, 10, 1), CLOVERDRUM_OK);
    SAME(open_counted(2, 20, 20, 1), CLOVERDRUM_NO_SCHEDULE);
    SAME(open_counted(2, 10, 10, 2), CLOVERDRUM_BAD_FIRST_DAY);
    SAME(open_counted(2, 10, 10, UINT64_MAX), CLOVERDRUM_BAD_FIRST_DAY);
    SAME(open_counted(2, 11, 10, 2), CLOVERDRUM_BAD_RANGE);
    SAME(write_counted(2, 2, 0, sizeof file, &bytes), CLOVERDRUM_BAD_FIRST_DAY);
    SAME(write_counted(2, 1, 0, sizeof file, &bytes), CLOVERDRUM_OK);
    SAME(read_counted(bytes, CLOVERDRUM_LIST_BYTES, 0, &first), CLOVERDRUM_OK);
    same("the first counted day of a file", (long)first, 1);
}

/* ---- lengths: the widest profile and the most cuts fill each list, and nothing shorter holds them */

static void try_lists(void)
{
    SAME(cloverdrum_session_bytes(), CLOVERDRUM_SESSION_BYTES);
    put_days(CLOVERDRUM_MOST_DAYS, CLOVERDRUM_LOWEST_POINT, CLOVERDRUM_HIGHEST_POINT, 0);
    TAKEN(cloverdrum_open(session, sizeof session, CLOVERDRUM_MOST_DAYS, floors, CLOVERDRUM_LIST_BYTES, ceilings, CLOVERDRUM_LIST_BYTES, rises,
                          CLOVERDRUM_LIST_BYTES - POINT_BYTES, CLOVERDRUM_LOWEST_TOTAL, CLOVERDRUM_HIGHEST_TOTAL, 0),
          CLOVERDRUM_LIST_BYTES);
    TAKEN(cut_room(CLOVERDRUM_DAY_FLOOR, 0, 0, CLOVERDRUM_LIST_BYTES), CLOVERDRUM_LIST_BYTES);
    REFUSED(cut_room(CLOVERDRUM_DAY_FLOOR, 0, 0, CLOVERDRUM_LIST_BYTES - 1), CLOVERDRUM_BAD_LENGTH, CLOVERDRUM_LIST_BYTES);
}

static void try_written_file(void)
{
    cloverdrum_size bytes;
    put_days(CLOVERDRUM_MOST_DAYS, CLOVERDRUM_LOWEST_POINT, CLOVERDRUM_HIGHEST_POINT, 0);
    put_cuts();
    REFUSED(write_file(CLOVERDRUM_MOST_DAYS + 1, 0, sizeof file, &bytes), CLOVERDRUM_BAD_COUNT, CLOVERDRUM_MOST_DAYS);
    TAKEN(write_file(CLOVERDRUM_MOST_DAYS, CUT_BYTES * CLOVERDRUM_MOST_CUTS, sizeof file, &bytes), CLOVERDRUM_MOST_CUTS);
    REFUSED(write_file(CLOVERDRUM_MOST_DAYS, sizeof cuts, sizeof file, &bytes), CLOVERDRUM_BAD_COUNT, CLOVERDRUM_MOST_CUTS);
    REFUSED(write_file(CLOVERDRUM_MOST_DAYS, CLOVERDRUM_CUTS_BYTES, CLOVERDRUM_FILE_BYTES - 1, &bytes), CLOVERDRUM_BAD_LENGTH, CLOVERDRUM_FILE_BYTES);
    TAKEN(write_file(CLOVERDRUM_MOST_DAYS, CLOVERDRUM_CUTS_BYTES, CLOVERDRUM_FILE_BYTES, &bytes), CLOVERDRUM_CUTS_BYTES);
    SAME(bytes, CLOVERDRUM_FILE_BYTES);
}

/* The file that try_written_file leaves. Its second field is the number of cuts. */
static void try_read_file(void)
{
    TAKEN(read_file(CLOVERDRUM_FILE_BYTES, CLOVERDRUM_LIST_BYTES, CLOVERDRUM_CUTS_BYTES), CLOVERDRUM_FILE_BYTES);
    REFUSED(read_file(CLOVERDRUM_FILE_BYTES, CLOVERDRUM_LIST_BYTES - 1, CLOVERDRUM_CUTS_BYTES), CLOVERDRUM_BAD_LENGTH, CLOVERDRUM_LIST_BYTES);
    REFUSED(read_file(CLOVERDRUM_FILE_BYTES, CLOVERDRUM_LIST_BYTES, CLOVERDRUM_CUTS_BYTES - 1), CLOVERDRUM_BAD_LENGTH, CLOVERDRUM_CUTS_BYTES);
    REFUSED(read_file(CLOVERDRUM_FILE_BYTES + 1, CLOVERDRUM_LIST_BYTES, CLOVERDRUM_CUTS_BYTES), CLOVERDRUM_BAD_FILE, CLOVERDRUM_FILE_BYTES);
    put_point(file, 1, CLOVERDRUM_MOST_CUTS + 1);
    REFUSED(read_file(sizeof file, CLOVERDRUM_LIST_BYTES, sizeof cuts), CLOVERDRUM_BAD_COUNT, CLOVERDRUM_MOST_CUTS);
}

/* ---- refusals that no bound above gives */

static void try_refusals(void)
{
    SAME(open_days(1, 1, 0, 0), CLOVERDRUM_BAD_RANGE);
    SAME(open_total(1, 1), CLOVERDRUM_NO_SCHEDULE);
    SAME(open_days(2, 0, 10, 0), CLOVERDRUM_OK);
    SAME(cut(CLOVERDRUM_DAY_FLOOR, 2, 0), CLOVERDRUM_BAD_DAY);
    SAME(cut(CLOVERDRUM_TOTAL_FLOOR, 1, 0), CLOVERDRUM_BAD_KIND);
    SAME(cut(CLOVERDRUM_TOTAL_CEILING + 1, 0, 0), CLOVERDRUM_BAD_KIND);
    SAME(write_day(2, 0, 10), CLOVERDRUM_OK);
    SAME(write_day(2, 0, 11), CLOVERDRUM_OUTSIDE_RANGE);
    SAME(cut(CLOVERDRUM_TOTAL_FLOOR, 0, 21), CLOVERDRUM_NO_SCHEDULE);
    SAME(cut(CLOVERDRUM_TOTAL_FLOOR, 0, 0), CLOVERDRUM_SPENT);
}

/* ---- changed days: three days from 0 leave each other free, and the cut takes what is above 5. */

static void try_order(void)
{
    put_days(3, 0, 8, CLOVERDRUM_LOWEST_RISE);
    put_point(ceilings, 1, 9);
    SAME(open_lists(3, 0, CLOVERDRUM_HIGHEST_TOTAL), CLOVERDRUM_OK);
    SAME(cut(CLOVERDRUM_TOTAL_CEILING, 0, 5), CLOVERDRUM_OK);
    same("the day with the largest loss", point_at(changed, 0), 1);
    same("the first of two days with equal losses", point_at(changed, 1), 0);
    same("the second of them", point_at(changed, 2), 2);
}

/* ---- sheets */

/* The most cuts fill their list and that of the answers, and nothing shorter holds the answers. */
static void try_longest_sheet(void)
{
    cloverdrum_size count;
    SAME(open_days(1, 0, 10, 0), CLOVERDRUM_OK);
    put_cuts();
    TAKEN(cut_sheet(CLOVERDRUM_CUTS_BYTES, CLOVERDRUM_ANSWERS_BYTES, POINT_BYTES, &count), CLOVERDRUM_ANSWERS_BYTES);
    REFUSED(cut_sheet(sizeof cuts, sizeof answers, POINT_BYTES, &count), CLOVERDRUM_BAD_COUNT, CLOVERDRUM_MOST_CUTS);
    REFUSED(cut_sheet(CLOVERDRUM_CUTS_BYTES, CLOVERDRUM_ANSWERS_BYTES - 1, POINT_BYTES, &count), CLOVERDRUM_SHORT_ANSWERS, CLOVERDRUM_ANSWERS_BYTES);
    REFUSED(cut_sheet(CLOVERDRUM_CUTS_BYTES, CLOVERDRUM_ANSWERS_BYTES, POINT_BYTES - 1, &count), CLOVERDRUM_BAD_LENGTH, POINT_BYTES);
    REFUSED(cut_sheet(CLOVERDRUM_CUTS_BYTES - 1, CLOVERDRUM_ANSWERS_BYTES, POINT_BYTES, &count), CLOVERDRUM_BAD_LENGTH, CUT_BYTES);
}

static void answered(size_t place, long refusal, long days)
{
    same("the refusal of a sheet's cut", point_at(answers, 2 * place), refusal);
    same("the changed days of a sheet's cut", point_at(answers, 2 * place + 1), days);
}

/* Three days that leave each other free. From start to end they lose 3, 5 and 4; the last cut changes day 0 alone. */
static void try_sheet(void)
{
    cloverdrum_size count;
    put_days(3, 0, 10, CLOVERDRUM_LOWEST_RISE);
    SAME(open_lists(3, 0, CLOVERDRUM_HIGHEST_TOTAL), CLOVERDRUM_OK);
    put_cut(0, CLOVERDRUM_DAY_FLOOR, 1, 5);
    put_cut(1, CLOVERDRUM_DAY_FLOOR, 3, 5);
    put_cut(2, CLOVERDRUM_DAY_CEILING, 2, 6);
    put_cut(3, CLOVERDRUM_TOTAL_CEILING, 0, CLOVERDRUM_HIGHEST_TOTAL + 1L);
    put_cut(4, CLOVERDRUM_DAY_FLOOR, 0, 3);
    SAME(cut_sheet(5 * CUT_BYTES, 5 * ANSWER_BYTES, sizeof changed, &count), CLOVERDRUM_OK);
    answered(0, CLOVERDRUM_OK, 1);
    answered(1, CLOVERDRUM_BAD_DAY, 0);
    answered(2, CLOVERDRUM_OK, 1);
    answered(3, CLOVERDRUM_BAD_TOTAL, 0);
    answered(4, CLOVERDRUM_OK, 1);
    same("the days that a sheet changed", (long)count, 3);
    same("the first of them", point_at(changed, 0), 1);
    same("the second of them", point_at(changed, 1), 2);
    same("the third of them", point_at(changed, 2), 0);
}

/* A sheet that ends spent lists nothing, and a spent session takes another. */
static void try_spent_sheet(void)
{
    cloverdrum_size count;
    SAME(open_days(1, 0, 10, 0), CLOVERDRUM_OK);
    put_point(changed, 0, CLOVERDRUM_MOST_DAYS);
    put_cut(0, CLOVERDRUM_DAY_FLOOR, 0, 5);
    put_cut(1, CLOVERDRUM_DAY_CEILING, 0, 4);
    SAME(cut_sheet(2 * CUT_BYTES, 2 * ANSWER_BYTES, POINT_BYTES, &count), CLOVERDRUM_OK);
    answered(0, CLOVERDRUM_OK, 1);
    answered(1, CLOVERDRUM_NO_SCHEDULE, 0);
    SAME(cut_sheet(CUT_BYTES, ANSWER_BYTES, POINT_BYTES, &count), CLOVERDRUM_OK);
    answered(0, CLOVERDRUM_SPENT, 0);
    same("the days of a sheet that ends spent", (long)count, 0);
    same("the list of a sheet that ends spent", point_at(changed, 0), CLOVERDRUM_MOST_DAYS);
}

/* ---- kinds and rules */

/* Two days from 0 to 10 that leave each other free: each kind moves one end of one range. */
static void try_kinds(void)
{
    int32_t total_floor, total_ceiling;
    uint8_t spent;
    SAME(open_days(2, 0, 10, CLOVERDRUM_LOWEST_RISE), CLOVERDRUM_OK);
    SAME(cut(CLOVERDRUM_DAY_FLOOR, 1, 2), CLOVERDRUM_OK);
    SAME(cut(CLOVERDRUM_DAY_CEILING, 1, 8), CLOVERDRUM_OK);
    SAME(cut(CLOVERDRUM_TOTAL_FLOOR, 0, 3), CLOVERDRUM_OK);
    SAME(cut(CLOVERDRUM_TOTAL_CEILING, 0, 15), CLOVERDRUM_OK);
    SAME(cloverdrum_read(session, sizeof session, floors, sizeof floors, ceilings, sizeof ceilings, &total_floor, &total_ceiling, &spent), CLOVERDRUM_OK);
    same("CLOVERDRUM_DAY_FLOOR", point_at(floors, 1), 2);
    same("CLOVERDRUM_DAY_CEILING", point_at(ceilings, 1), 8);
    same("CLOVERDRUM_TOTAL_FLOOR", total_floor, 3);
    same("CLOVERDRUM_TOTAL_CEILING", total_ceiling, 15);
}

static cloverdrum_size broken_rule(long first, long second)
{
    uint8_t schedule[2 * POINT_BYTES];
    cloverdrum_size rule, place;
    put_point(schedule, 0, first);
    put_point(schedule, 1, second);
    SAME(cloverdrum_inspect(session, sizeof session, schedule, sizeof schedule, &rule, &place), CLOVERDRUM_OK);
    return rule;
}

static void try_rules(void)
{
    put_days(2, 0, 10, 0);
    SAME(open_lists(2, 0, 15), CLOVERDRUM_OK);
    SAME(broken_rule(5, 10), CLOVERDRUM_KEPT);
    SAME(broken_rule(5, 11), CLOVERDRUM_BROKEN_DAY);
    SAME(broken_rule(5, 4), CLOVERDRUM_BROKEN_RISE);
    SAME(broken_rule(6, 10), CLOVERDRUM_BROKEN_TOTAL);
}

int main(void)
{
    try_days();
    try_point();
    try_rise();
    try_total();
    try_first_day();
    try_lists();
    try_written_file();
    try_read_file();
    try_refusals();
    try_order();
    try_longest_sheet();
    try_sheet();
    try_spent_sheet();
    try_kinds();
    try_rules();
    return differences != 0;
}

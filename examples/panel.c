/* Opens document 01's profile A, whose small numbers are made for working by hand, with every day counted, cuts day 0 to at least 3, then the total to at most
 * 11 by a sheet with one cut more, for a day that is not there, and prints the ranges: the total's floor and ceiling, then each day's number, floor and
 * ceiling, in points. A refusal is printed as its number, with what was asked.
 *
 *     ./library
 *     gcc -Iinclude -o target/panel examples/panel.c target/staticlib/libcloverdrum.a && target/panel
 *
 * docs/BOARD.md has it for a board. */
#include "cloverdrum.h"

#include <stdio.h>

enum { DAYS = 3, CUTS = 2 };

/* A list's element has 2 bytes, the low byte first. */
static void put_point(uint8_t *list, size_t place, int point)
{
    unsigned bits = (unsigned)point & 0xffffu;
    list[2 * place] = (uint8_t)(bits & 0xffu);
    list[2 * place + 1] = (uint8_t)(bits >> 8);
}

static int point_at(const uint8_t *list, size_t place)
{
    int bits = list[2 * place] + 256 * list[2 * place + 1];
    return bits < 32768 ? bits : bits - 65536;
}

static unsigned day_at(const uint8_t *list, size_t place)
{
    return list[2 * place] + 256u * list[2 * place + 1];
}

static int refused(const char *asked, unsigned number)
{
    if (number != CLOVERDRUM_OK)
        printf("%s: refused %u\n", asked, number);
    return number != CLOVERDRUM_OK;
}

static int open_profile(uint8_t *session)
{
    static const int floors[DAYS] = {2, 4, 4}, ceilings[DAYS] = {6, 7, 7}, rises[DAYS - 1] = {0, 0};
    uint8_t low[2 * DAYS], high[2 * DAYS], steps[2 * (DAYS - 1)];
    size_t i;
    for (i = 0; i < DAYS; i++) {
        put_point(low, i, floors[i]);
        put_point(high, i, ceilings[i]);
    }
    for (i = 0; i + 1 < DAYS; i++)
        put_point(steps, i, rises[i]);
    return refused("open", cloverdrum_open(session, CLOVERDRUM_SESSION_BYTES, DAYS, low, sizeof low, high, sizeof high, steps, sizeof steps, 10, 12, 0));
}

/* The changed days, the largest loss first, go to standard error, so that standard output has the ranges alone. */
static void print_changed(const uint8_t *changed, cloverdrum_size count)
{
    cloverdrum_size i;
    fprintf(stderr, "%u changed:", (unsigned)count);
    for (i = 0; i < count; i++)
        fprintf(stderr, " day %u", day_at(changed, (size_t)i));
    fprintf(stderr, "\n");
}

static int cut(uint8_t *session, size_t kind, size_t day, int32_t value)
{
    uint8_t changed[2 * DAYS];
    cloverdrum_size count;
    if (refused("cut", cloverdrum_cut(session, CLOVERDRUM_SESSION_BYTES, kind, day, value, changed, sizeof changed, &count)))
        return 1;
    print_changed(changed, count);
    return 0;
}

/* A cut has 8 bytes: kind, day, then the value in 4, here a small one; an answer has 4, the refusal and the number of changed days. A refused cut, as the
 * second one here, leaves the session, and the sheet goes on. */
static int cut_sheet(uint8_t *session)
{
    static const int cuts[CUTS][4] = {{CLOVERDRUM_TOTAL_CEILING, 0, 11, 0}, {CLOVERDRUM_DAY_FLOOR, DAYS, 5, 0}};
    uint8_t sheet[8 * CUTS], answers[4 * CUTS], changed[2 * DAYS];
    cloverdrum_size count;
    unsigned number;
    size_t i;
    for (i = 0; i < 4 * CUTS; i++)
        put_point(sheet, i, cuts[i / 4][i % 4]);
    number = cloverdrum_cut_sheet(session, CLOVERDRUM_SESSION_BYTES, sheet, sizeof sheet, answers, sizeof answers, changed, sizeof changed, &count);
    if (refused("sheet", number))
        return 1;
    for (i = 0; i < CUTS; i++)
        fprintf(stderr, "cut %u: refusal %d, changed %d\n", (unsigned)i, point_at(answers, 2 * i), point_at(answers, 2 * i + 1));
    print_changed(changed, count);
    return 0;
}

static int print_ranges(const uint8_t *session)
{
    uint8_t low[2 * DAYS], high[2 * DAYS], spent;
    int32_t least, most;
    size_t i;
    if (refused("read", cloverdrum_read(session, CLOVERDRUM_SESSION_BYTES, low, sizeof low, high, sizeof high, &least, &most, &spent)))
        return 1;
    printf("total %ld %ld\n", (long)least, (long)most);
    for (i = 0; i < DAYS; i++)
        printf("day %u %d %d\n", (unsigned)i, point_at(low, i), point_at(high, i));
    return 0;
}

int main(void)
{
    static uint8_t session[CLOVERDRUM_SESSION_BYTES];
    if (open_profile(session))
        return 1;
    if (cut(session, CLOVERDRUM_DAY_FLOOR, 0, 3) || cut_sheet(session))
        return 1;
    return print_ranges(session);
}

/* Random calls of every entry, the same on every machine with the same seed; board/check compares what they leave on two machines.
 *
 *     random_calls SEED CALLS FILE
 *
 * FILE gets a record for each call. Sessions and lists lie at any alignment, and the bytes around them are watched too. Standard output gets for each entry
 * how many calls had each answer, as ANSWER:CALLS. */
#include "cloverdrum.h"

#include <stdio.h>
#include <stdlib.h>

enum { DAYS = CLOVERDRUM_MOST_DAYS, POINT_BYTES = 2, CUT_BYTES = 8, ANSWER_BYTES = 4 };
enum { SESSION = CLOVERDRUM_SESSION_BYTES, LIST = CLOVERDRUM_LIST_BYTES };

/* An answer, and a hash of the numbers that were stored and of the memory that was lent. All bits of the answer are kept that a caller's compiler looks at. */
struct record {
    uint16_t entry, answer;
    uint32_t hash;
};

/* ---- numbers at random */

static uint64_t state;

/* splitmix64 */
static uint64_t draw(void)
{
    uint64_t z = state += 0x9e3779b97f4a7c15u;
    z = (z ^ z >> 30) * 0xbf58476d1ce4e5b9u;
    z = (z ^ z >> 27) * 0x94d049bb133111ebu;
    return z ^ z >> 31;
}

static uint32_t below(uint32_t n)
{
    return (uint32_t)((draw() >> 32) * n >> 32);
}

static int32_t between(int32_t least, int32_t most)
{
    return most <= least ? least : least + (int32_t)below((uint32_t)(most - least) + 1);
}

static int one_in(uint32_t n)
{
    return below(n) == 0;
}

static int32_t within(int32_t value, int32_t least, int32_t most)
{
    return value < least ? least : value > most ? most : value;
}

/* ---- memory that is lent: four sessions, four lists, cuts, answers and a file, each with room around it */

enum { SESSIONS = 4, LISTS = 4, ROOM = 64, ALIGNMENTS = 16, WATCHED = 16 };
enum { CUTS_AREA = SESSIONS + LISTS, ANSWERS_AREA, FILE_AREA, AREAS };

struct area {
    uint32_t *words;
    uint32_t size;
};

static uint32_t session_memory[SESSIONS][(SESSION + 2 * ROOM) / 4], list_memory[LISTS][(LIST + 2 * ROOM) / 4];
static uint32_t cuts_memory[(CLOVERDRUM_CUTS_BYTES + 2 * ROOM) / 4], answers_memory[(CLOVERDRUM_ANSWERS_BYTES + 2 * ROOM) / 4];
static uint32_t file_memory[(CLOVERDRUM_FILE_BYTES + 2 * ROOM) / 4];

static struct area area(uint32_t which)
{
    struct area a;
    if (which < SESSIONS)
        a = (struct area){session_memory[which], sizeof session_memory[which]};
    else if (which < CUTS_AREA)
        a = (struct area){list_memory[which - SESSIONS], sizeof list_memory[which - SESSIONS]};
    else if (which == CUTS_AREA)
        a = (struct area){cuts_memory, sizeof cuts_memory};
    else if (which == ANSWERS_AREA)
        a = (struct area){answers_memory, sizeof answers_memory};
    else
        a = (struct area){file_memory, sizeof file_memory};
    return a;
}

/* The linear congruence of Knuth's MMIX; its high byte is used. */
static void scramble(uint8_t *bytes, uint32_t count)
{
    uint64_t z = draw();
    for (uint32_t i = 0; i < count; i++) {
        z = z * 6364136223846793005u + 1442695040888963407u;
        bytes[i] = (uint8_t)(z >> 56);
    }
}

static uint8_t *bytes_of(uint32_t which)
{
    return (uint8_t *)area(which).words;
}

/* A step of FNV-1a, a word at a time. */
static uint32_t mix(uint32_t hash, uint32_t word)
{
    hash = (hash ^ word) * 0x01000193u;
    return hash ^ hash >> 15;
}

static uint32_t hash_area(uint32_t hash, struct area a)
{
    for (uint32_t i = 0; i < a.size / 4; i++)
        hash = mix(hash, a.words[i]);
    return hash;
}

/* ---- elements of 2 bytes */

static void put(uint8_t *list, uint32_t place, int32_t value)
{
    list[POINT_BYTES * place] = (uint8_t)value;
    list[POINT_BYTES * place + 1] = (uint8_t)((uint32_t)value >> 8);
}

static int32_t point_at(const uint8_t *list, uint32_t place)
{
    int32_t bits = list[POINT_BYTES * place] + 256 * list[POINT_BYTES * place + 1];
    return bits <= INT16_MAX ? bits : bits - UINT16_MAX - 1;
}

/* ---- profiles */

static int32_t floors[DAYS], ceilings[DAYS], rises[DAYS], lowest, highest;
static uint32_t first_counted;

static uint32_t some_days(void)
{
    switch (below(16)) {
    case 0: return 1;
    case 1: return DAYS;
    case 2: return (uint32_t)between(100, DAYS);
    case 3: return (uint32_t)between(20, 100);
    default: return (uint32_t)between(1, 20);
    }
}

static int32_t point(int32_t value)
{
    return within(value, CLOVERDRUM_LOWEST_POINT, CLOVERDRUM_HIGHEST_POINT);
}

static int32_t total(int32_t value)
{
    return within(value, CLOVERDRUM_LOWEST_TOTAL, CLOVERDRUM_HIGHEST_TOTAL);
}

/* A profile around a schedule: how wide its ranges are, how steep the schedule is, whether it falls, how far its least rises are below its steps, from which
 * day on it counts. */
static void lay_profile(uint32_t n)
{
    static const int32_t steepest[] = {0, 60, 60, 1500}, widest[] = {8, 300, 3000, 3000};
    int32_t width = between(0, widest[below(4)]), step = between(0, steepest[below(4)]), fall = one_in(4) ? 0 : -step, slack = between(0, 40);
    int32_t value = between(-500, 3500), sum = 0, reach;
    first_counted = one_in(2) ? 0 : below(n);
    for (uint32_t i = 0; i < n; i++) {
        int32_t next = point(value + between(fall, step));
        floors[i] = point(value - between(0, width));
        ceilings[i] = point(value + between(0, width));
        rises[i] = within(next - value - between(0, slack), CLOVERDRUM_LOWEST_RISE, CLOVERDRUM_HIGHEST_RISE);
        sum += i < first_counted ? 0 : value;
        value = next;
    }
    reach = one_in(4) ? 0 : between(0, one_in(3) ? 100000 : 50 * (int32_t)n);
    lowest = total(sum - between(0, reach));
    highest = total(sum + between(0, reach));
}

/* Within the bounds, at one of them, just past one, or any number. */
static int32_t spoilt(int32_t least, int32_t most)
{
    switch (below(8)) {
    case 0: return least - 1;
    case 1: return most + 1;
    case 2: return least;
    case 3: return most;
    case 4: return (int32_t)draw();
    default: return between(least, most);
    }
}

static void spoil_profile(uint32_t n)
{
    if (one_in(10))
        floors[below(n)] = spoilt(CLOVERDRUM_LOWEST_POINT, CLOVERDRUM_HIGHEST_POINT);
    if (one_in(10))
        ceilings[below(n)] = spoilt(CLOVERDRUM_LOWEST_POINT, CLOVERDRUM_HIGHEST_POINT);
    if (one_in(10))
        rises[below(n)] = spoilt(CLOVERDRUM_LOWEST_RISE, CLOVERDRUM_HIGHEST_RISE);
    if (one_in(10))
        lowest = spoilt(CLOVERDRUM_LOWEST_TOTAL, CLOVERDRUM_HIGHEST_TOTAL);
    if (one_in(10))
        highest = spoilt(CLOVERDRUM_LOWEST_TOTAL, CLOVERDRUM_HIGHEST_TOTAL);
}

/* ---- the arguments of a call, and what it stores */

static struct {
    uint8_t *session, *lists[LISTS], *cuts, *answers, *file;
    uint32_t which, days;
    cloverdrum_size first, second, third;
    int32_t least, most;
    uint8_t spent;
} lent;

static struct {
    uint32_t days, offset;
    int is_open;
} sessions[SESSIONS];

/* The file that was written last. */
static struct {
    uint32_t offset, bytes, days, cuts;
} written;

/* Room for any list is there after each of these places. */
static uint32_t some_offset(void)
{
    return ROOM - ALIGNMENTS + below(ALIGNMENTS);
}

static void lend(void)
{
    uint32_t k = below(SESSIONS);
    if (!sessions[k].is_open && one_in(3))
        sessions[k].offset = some_offset();
    lent.which = k;
    lent.days = sessions[k].days;
    lent.session = bytes_of(k) + sessions[k].offset;
    for (uint32_t i = 0; i < LISTS; i++)
        lent.lists[i] = bytes_of(SESSIONS + i) + some_offset();
    lent.cuts = bytes_of(CUTS_AREA) + some_offset();
    lent.answers = bytes_of(ANSWERS_AREA) + some_offset();
    lent.file = bytes_of(FILE_AREA) + written.offset;
    lent.first = lent.second = lent.third = draw();
    lent.least = lent.most = (int32_t)draw();
    lent.spent = (uint8_t)draw();
}

/* Of so many numbers or lengths about six are not what they should be. */
enum { TOLD = 120 };

/* A number that should be this, and now and then is another, also past 32 bits. */
static uint64_t told(uint64_t number)
{
    switch (below(TOLD)) {
    case 0: return number + 1;
    case 1: return number - 1;
    case 2: return number + ((uint64_t)1 << 32);
    case 3: return number ^ (uint64_t)1 << below(64);
    case 4: return draw();
    case 5: return 0;
    default: return number;
    }
}

/* The profile's first counted day, now and then the last day of n, the first that is not there, or one that 2 bytes hold just so, or not. */
static uint64_t told_first(uint32_t n)
{
    switch (below(40)) {
    case 0: return n - 1;
    case 1: return n;
    case 2: return UINT16_MAX;
    case 3: return UINT16_MAX + (uint64_t)1;
    case 4: return UINT64_MAX;
    default: return told(first_counted);
    }
}

/* A day of n, now and then the last, or the first that is not there. */
static uint32_t some_day(uint32_t n)
{
    switch (below(20)) {
    case 0: return n;
    case 1: return n > 0 ? n - 1 : 0;
    default: return below(n);
    }
}

/* The length of a list that should have so many bytes, and of which so many are there. */
static uint64_t length(uint32_t bytes, uint32_t there)
{
    switch (below(TOLD)) {
    case 0: return bytes < there ? bytes + 1 : bytes;
    case 1: return bytes > 0 ? bytes - 1 : 0;
    case 2: return bytes + POINT_BYTES <= there ? bytes + POINT_BYTES : bytes;
    case 3: return bytes >= POINT_BYTES ? bytes - POINT_BYTES : 0;
    case 4: return below(there + 1);
    case 5: return 0;
    default: return bytes;
    }
}

static uint64_t list_length(uint32_t places)
{
    return length(POINT_BYTES * places, LIST);
}

static uint64_t session_length(void)
{
    return one_in(60) ? below(SESSION + 2) : SESSION;
}

/* Draws a profile into the first three lists, and answers its days. */
static uint32_t put_profile(void)
{
    uint32_t n = some_days();
    lay_profile(n);
    spoil_profile(n);
    for (uint32_t i = 0; i < n; i++) {
        put(lent.lists[0], i, floors[i]);
        put(lent.lists[1], i, ceilings[i]);
        put(lent.lists[2], i, rises[i]);
    }
    return n;
}

/* The present ranges, in the last two lists, as the library reads them. */
static void read_ranges(void)
{
    cloverdrum_read(lent.session, SESSION, lent.lists[2], LIST, lent.lists[3], LIST, &lent.least, &lent.most, &lent.spent);
}

/* ---- calls, by entry. Each answers what the entry does. */

static unsigned call_open(void)
{
    uint32_t n = put_profile();
    uint64_t bytes = session_length(), days = told(n), low = list_length(n), high = list_length(n), steps = list_length(n - 1), first = told_first(n);
    unsigned answer = cloverdrum_open(lent.session, bytes, days, lent.lists[0], low, lent.lists[1], high, lent.lists[2], steps, lowest, highest, first);
    if (answer == CLOVERDRUM_OK) {
        sessions[lent.which].is_open = 1;
        sessions[lent.which].days = n;
    }
    return answer;
}

/* A value in the range, near the end that the kind cuts: in that part of it. */
static int32_t value_near_end(uint32_t kind, int32_t least, int32_t most, int32_t part)
{
    int32_t near = most > least ? (most - least) / part : 0;
    int is_floor = kind == CLOVERDRUM_DAY_FLOOR || kind == CLOVERDRUM_TOTAL_FLOOR;
    return is_floor ? between(least, least + near) : between(most - near, most);
}

/* Most often such a value. */
static int32_t value_for(uint32_t kind, int32_t least, int32_t most)
{
    switch (below(25)) {
    case 0: return spoilt(INT16_MIN, INT16_MAX);
    case 1: return spoilt(CLOVERDRUM_LOWEST_POINT, CLOVERDRUM_HIGHEST_POINT);
    case 2: return spoilt(CLOVERDRUM_LOWEST_TOTAL, CLOVERDRUM_HIGHEST_TOTAL);
    case 3: return spoilt(least, most);
    case 4: return between(least, most);
    default: return value_near_end(kind, least, most, 4);
    }
}

struct cut {
    uint32_t kind, day;
    int32_t value;
};

/* Of the ranges that read_ranges left; a gentle cut takes little, so that many of them leave a schedule. */
static struct cut some_cut(int is_gentle)
{
    uint32_t kind = below(4), is_day = kind <= CLOVERDRUM_DAY_CEILING, day = is_day ? some_day(lent.days) : 0;
    int32_t least = is_day ? point_at(lent.lists[2], day) : total(lent.least), most = is_day ? point_at(lent.lists[3], day) : total(lent.most);
    return (struct cut){kind, day, is_gentle ? value_near_end(kind, least, most, 64) : value_for(kind, least, most)};
}

/* Reads the ranges before a cut. Where the session is spent, most often an opening follows the call. */
static void look(void)
{
    read_ranges();
    if (lent.spent && !one_in(4))
        sessions[lent.which].is_open = 0;
}

static unsigned call_cut(void)
{
    look();
    struct cut cut = some_cut(0);
    uint64_t bytes = session_length(), told_kind = told(cut.kind), told_day = told(cut.day), changed = list_length(lent.days);
    return cloverdrum_cut(lent.session, bytes, told_kind, told_day, cut.value, lent.lists[0], changed, &lent.first);
}

static void put_cut(uint32_t place, struct cut cut)
{
    uint8_t *bytes = lent.cuts + CUT_BYTES * place;
    put(bytes, 0, (int32_t)cut.kind);
    put(bytes, 1, (int32_t)cut.day);
    put(bytes, 2, cut.value);
    put(bytes, 3, (int32_t)((uint32_t)cut.value >> 16));
}

/* Few cuts, now and then any number of them, all that a sheet takes, or one more. */
static uint32_t some_cuts(void)
{
    switch (below(60)) {
    case 0: return CLOVERDRUM_MOST_CUTS + 1;
    case 1: return CLOVERDRUM_MOST_CUTS;
    case 2: return below(CLOVERDRUM_MOST_CUTS);
    default: return below(8);
    }
}

/* A kind and a day are now and then any numbers of 2 bytes. */
static unsigned call_cut_sheet(void)
{
    uint32_t cuts = some_cuts(), answers = cuts <= CLOVERDRUM_MOST_CUTS ? cuts : CLOVERDRUM_MOST_CUTS;
    int is_gentle = !one_in(4);
    look();
    for (uint32_t i = 0; i < cuts; i++) {
        struct cut cut = some_cut(is_gentle);
        cut.kind = one_in(TOLD) ? below(UINT16_MAX) : cut.kind;
        cut.day = one_in(TOLD) ? below(UINT16_MAX) : cut.day;
        put_cut(i, cut);
    }
    uint64_t bytes = session_length(), cuts_bytes = length(CUT_BYTES * cuts, CLOVERDRUM_CUTS_BYTES), changed = list_length(lent.days);
    uint64_t answers_bytes = length(ANSWER_BYTES * answers, CLOVERDRUM_ANSWERS_BYTES);
    return cloverdrum_cut_sheet(lent.session, bytes, lent.cuts, cuts_bytes, lent.answers, answers_bytes, lent.lists[0], changed, &lent.first);
}

static unsigned call_read(void)
{
    uint64_t bytes = session_length(), low = list_length(lent.days), high = list_length(lent.days);
    return cloverdrum_read(lent.session, bytes, lent.lists[0], low, lent.lists[1], high, &lent.least, &lent.most, &lent.spent);
}

/* A value in the range, now and then just outside it. */
static int32_t value_near(int32_t least, int32_t most)
{
    switch (below(10)) {
    case 0: return least - 1;
    case 1: return most + 1;
    default: return between(least, most);
    }
}

static unsigned call_write_day(void)
{
    uint32_t day = some_day(lent.days);
    read_ranges();
    int32_t value = value_near(point_at(lent.lists[2], day), point_at(lent.lists[3], day));
    uint64_t bytes = session_length(), told_day = told(day), schedule = list_length(lent.days);
    return cloverdrum_write_day(lent.session, bytes, told_day, value, lent.lists[0], schedule);
}

static unsigned call_write_total(void)
{
    read_ranges();
    int32_t value = value_near(total(lent.least), total(lent.most));
    uint64_t bytes = session_length(), schedule = list_length(lent.days);
    return cloverdrum_write_total(lent.session, bytes, value, lent.lists[0], schedule);
}

/* Of a schedule that the library wrote, now and then with a day moved. */
static unsigned call_inspect(void)
{
    uint32_t day = some_day(lent.days);
    read_ranges();
    cloverdrum_write_total(lent.session, SESSION, between(total(lent.least), total(lent.most)), lent.lists[0], POINT_BYTES * lent.days);
    if (one_in(2))
        put(lent.lists[0], day, point_at(lent.lists[0], day) + between(-50, 50));
    if (one_in(10))
        put(lent.lists[0], day, (int32_t)draw());
    uint64_t bytes = session_length(), schedule = list_length(lent.days);
    return cloverdrum_inspect(lent.session, bytes, lent.lists[0], schedule, &lent.first, &lent.second);
}

static void put_any_cut(uint32_t place, uint32_t days)
{
    uint32_t kind = below(4), is_day = kind <= CLOVERDRUM_DAY_CEILING, day = is_day ? below(days) : 0;
    int32_t value = is_day ? between(CLOVERDRUM_LOWEST_POINT, CLOVERDRUM_HIGHEST_POINT) : between(CLOVERDRUM_LOWEST_TOTAL, CLOVERDRUM_HIGHEST_TOTAL);
    if (one_in(TOLD))
        kind = below(UINT16_MAX);
    if (one_in(TOLD))
        day = one_in(2) ? days : below(UINT16_MAX);
    if (one_in(TOLD))
        value = is_day ? spoilt(CLOVERDRUM_LOWEST_POINT, CLOVERDRUM_HIGHEST_POINT) : spoilt(CLOVERDRUM_LOWEST_TOTAL, CLOVERDRUM_HIGHEST_TOTAL);
    put_cut(place, (struct cut){kind, day, value});
}

static unsigned call_write_file(void)
{
    uint32_t n = put_profile(), cuts = one_in(12) ? below(CLOVERDRUM_MOST_CUTS + 1) : below(8), offset = some_offset();
    for (uint32_t i = 0; i < cuts; i++)
        put_any_cut(i, n);
    uint64_t days = told(n), low = list_length(n), high = list_length(n), steps = list_length(n - 1), first = told_first(n);
    uint64_t cuts_bytes = length(CUT_BYTES * cuts, CLOVERDRUM_CUTS_BYTES), room = one_in(10) ? below(CLOVERDRUM_FILE_BYTES + 1) : CLOVERDRUM_FILE_BYTES;
    unsigned answer = cloverdrum_write_file(days, lent.lists[0], low, lent.lists[1], high, lent.lists[2], steps, lowest, highest, first, lent.cuts,
                                            cuts_bytes, bytes_of(FILE_AREA) + offset, room, &lent.first);
    if (answer == CLOVERDRUM_OK) {
        written.offset = offset;
        written.bytes = (uint32_t)lent.first;
        written.days = n;
        written.cuts = (uint32_t)(cuts_bytes / CUT_BYTES);
    }
    return answer;
}

/* Of the file that was written last, now and then truncated, longer, or with a byte changed: the first ones say what is where. */
static unsigned call_read_file(void)
{
    uint32_t front = 20, n = written.days, bytes = one_in(8) ? below(CLOVERDRUM_FILE_BYTES + 1) : written.bytes;
    uint64_t low = one_in(2) ? LIST : list_length(n), high = one_in(2) ? LIST : list_length(n), steps = one_in(2) || n == 0 ? LIST : list_length(n - 1);
    uint64_t cuts = one_in(2) ? CLOVERDRUM_CUTS_BYTES : length(CUT_BYTES * written.cuts, CLOVERDRUM_CUTS_BYTES);
    uint8_t *place = lent.file + below(one_in(2) || written.bytes < front ? front : written.bytes), change = one_in(2) ? (uint8_t)draw() : 0;
    *place ^= change;
    unsigned answer = cloverdrum_read_file(lent.file, bytes, lent.lists[0], low, lent.lists[1], high, lent.lists[2], steps, lent.cuts, cuts, &lent.first,
                                           &lent.second, &lent.least, &lent.most, &lent.third);
    *place ^= change;
    return answer;
}

static unsigned call_session_bytes(void)
{
    lent.first = cloverdrum_session_bytes();
    return CLOVERDRUM_OK;
}

/* A session's last 2 bytes. */
enum { FIRST_DAY = SESSION / POINT_BYTES - 1 };

/* Bytes that no session has, or a session with some of its bytes changed; then its ranges are read. */
static unsigned call_foreign(void)
{
    if (one_in(2)) {
        scramble(lent.session, SESSION);
        put(lent.session, 0, between(0, 600));
        put(lent.session, FIRST_DAY, one_in(2) ? between(0, 600) : (int32_t)draw());
    }
    for (uint32_t i = 0; i < 5; i++)
        lent.session[below(SESSION)] ^= (uint8_t)draw();
    return cloverdrum_read(lent.session, SESSION, lent.lists[0], LIST, lent.lists[1], LIST, &lent.least, &lent.most, &lent.spent);
}

/* ---- records */

/* OTHER is for what no entry answers. */
enum { ENTRIES = 11, OTHER = CLOVERDRUM_SHORT_ANSWERS + 1, ANSWERS, WEIGHTS = 88 };

static const struct {
    const char *name;
    unsigned (*call)(void);
    uint32_t weight;
    int lends_cuts; /* or a file */
} entries[ENTRIES] = {
    {"open", call_open, 8, 0},
    {"cut", call_cut, 32, 0},
    {"cut_sheet", call_cut_sheet, 8, 1},
    {"read", call_read, 6, 0},
    {"write_day", call_write_day, 5, 0},
    {"write_total", call_write_total, 5, 0},
    {"inspect", call_inspect, 6, 0},
    {"write_file", call_write_file, 8, 1},
    {"read_file", call_read_file, 8, 1},
    {"session_bytes", call_session_bytes, 1, 0},
    {"foreign bytes", call_foreign, 1, 0},
};

static unsigned long answers[ENTRIES][ANSWERS];

/* Most often an opening where there is no session yet. */
static uint16_t some_entry(void)
{
    uint16_t entry = 0;
    uint32_t left = below(WEIGHTS);
    if (!sessions[lent.which].is_open && !one_in(8))
        return 0;
    while (left >= entries[entry].weight)
        left -= entries[entry++].weight;
    return entry;
}

static uint32_t hash_stored(uint32_t hash)
{
    const uint32_t words[] = {(uint32_t)lent.first,  (uint32_t)(lent.first >> 32), (uint32_t)lent.second, (uint32_t)(lent.second >> 32),
                              (uint32_t)lent.third, (uint32_t)(lent.third >> 32), (uint32_t)lent.least,  (uint32_t)lent.most,
                              lent.spent};
    for (uint32_t i = 0; i < sizeof words / sizeof *words; i++)
        hash = mix(hash, words[i]);
    return hash;
}

/* Each call watches what it is lent, one in 16 all that there is. */
static uint32_t hash_lent(uint32_t hash, int watches_cuts, int watches_all)
{
    for (uint32_t i = 0; i < AREAS; i++) {
        int is_lent = i < SESSIONS ? i == lent.which : i < CUTS_AREA || watches_cuts;
        if (is_lent || watches_all)
            hash = hash_area(hash, area(i));
    }
    return hash;
}

static struct record make_call(uint32_t number)
{
    struct record record;
    lend();
    record.entry = some_entry();
    record.answer = (uint16_t)entries[record.entry].call();
    record.hash = hash_lent(hash_stored(number), entries[record.entry].lends_cuts, number % WATCHED == 0);
    answers[record.entry][record.answer < OTHER ? record.answer : OTHER]++;
    return record;
}

static void print_answers(uint32_t entry)
{
    printf("%s:", entries[entry].name);
    for (uint32_t answer = 0; answer < ANSWERS; answer++)
        if (answers[entry][answer] > 0)
            printf(" %lu:%lu", (unsigned long)answer, answers[entry][answer]);
    printf("\n");
}

static int write_records(uint32_t calls, FILE *records)
{
    for (uint32_t number = 0; number < calls; number++) {
        struct record record = make_call(number);
        if (fwrite(&record, sizeof record, 1, records) != 1)
            return 1;
    }
    return 0;
}

int main(int argc, char **argv)
{
    FILE *records = argc == 4 ? fopen(argv[3], "wb") : 0;
    if (!records)
        return 2;
    state = strtoull(argv[1], 0, 10);
    for (uint32_t i = 0; i < AREAS; i++)
        scramble(bytes_of(i), area(i).size);
    int failed = write_records((uint32_t)strtoul(argv[2], 0, 10), records);
    for (uint32_t entry = 0; entry < ENTRIES; entry++)
        print_answers(entry);
    return fclose(records) != 0 || failed;
}

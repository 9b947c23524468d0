/* Cloverdrum: the ranges of a tank profile, for the panel's firmware.
 *
 * A profile has 1 to 512 days. Each day has a floor and a ceiling for its setpoint, in points (hundredths of a degree Celsius); from each day to the next
 * there is a least rise, which may be negative; and the total, the sum of the setpoints from the first counted day on, has a floor and a ceiling. The days
 * before that one, on which the tank fills, keep their ranges and rises and do not count in the total; where every day counts, the first counted day is 0.
 * A schedule gives each day one setpoint and keeps all of this. A session holds an opened profile; for each day and for the total it has the exact range of the
 * values that some schedule takes. Cuts narrow ranges, and after each cut every range is exact again.
 *
 * Sessions. A session is a byte string of CLOVERDRUM_SESSION_BYTES bytes that the caller keeps, anywhere, at any alignment. Its bytes come from
 * cloverdrum_open and are changed by cloverdrum_cut and cloverdrum_cut_sheet alone. They may be copied, stored and compared: two sessions are equal exactly
 * when their bytes are.
 * What is promised below is for such bytes. On other bytes of that length, whatever day count and first counted day they hold, a call still ends and stays
 * within its lists, and its answer means nothing.
 *
 * Lists. A list is a byte string, given by its address and its count of bytes. Its elements have 2 bytes each, the low byte first: points and rises are
 * signed, days are unsigned. A list of cuts has 8 bytes for each cut, as in a profile file: kind (2 bytes), day (2), value (4, signed). A list of answers has
 * 4 bytes for each cut: its refusal, or 0 (2 bytes), and the number of days that it changed (2).
 *     "n long"         exactly 2n bytes
 *     "shorter than n" under 2n bytes; an odd last byte counts for nothing
 * On a little-endian machine, as all are that there is an archive for, an array of int16_t is a list of points or rises, and one of uint16_t a list of days:
 * its address as a uint8_t *, its sizeof.
 * n is the profile's day count. What lies past the elements that an entry writes is left as it is. An address may be anything where its count is 0, else it
 * must not be null; nor may the address of a number that an entry stores. No two of the byte strings and numbers of one call may overlap, unless the call
 * only reads both.
 *
 * Numbers. A length, a count, a day and a kind have 8 bytes on every machine (cloverdrum_size), also where size_t has 4. A size_t may be passed for one; where
 * an entry stores one through a pointer, it has to be a cloverdrum_size.
 *
 * Results. An entry returns 0, or the number of the first refusal that applies, in the order in which the entry names them; enum cloverdrum_refusal has the
 * causes, and the entry says in brackets what more there is to say. A session of another length is one whose session_length is not CLOVERDRUM_SESSION_BYTES.
 * Other results are stored through pointers; beside a refusal they are 0. A refusal changes no list and no session, but for 8 at a cut, which marks the
 * session spent. What refuses a cut of a sheet is no result of the entry: it stands in the list of answers.
 *
 * No entry allocates or keeps anything between calls. Two threads may call at once on different sessions. What an entry calls outside itself, a C library or
 * its compiler's runtime has:
 *     on x86-64       memcpy, memset
 *     on Cortex-M     __aeabi_memclr, __aeabi_memclr4, and on Cortex-M0+ __aeabi_lmul, __aeabi_uidiv
 *     on ARMv7 Linux  memset
 * The archive for x86-64 is that of the kit, for processors from x86-64-v2 on; the others are those of board/build, and docs/BOARD.md says what is proved of
 * them and what is tested.
 *
 * Stack. An entry takes at most so many bytes, with the arguments that are passed on the stack, on x86-64 and on Cortex-M. Nothing stops it on a stack that is
 * shorter, where no guard page lies below.
 *     cloverdrum_open           3,584   3,840
 *     cloverdrum_cut            3,840   4,096
 *     cloverdrum_cut_sheet      4,864   5,120
 *     cloverdrum_read             256     256
 *     cloverdrum_write_day      3,328   3,584
 *     cloverdrum_write_total    3,328   3,584
 *     cloverdrum_inspect        4,352   4,352
 *     cloverdrum_write_file     5,376   5,632
 *     cloverdrum_read_file      3,584   3,584
 *     cloverdrum_session_bytes    256     256
 */
#ifndef CLOVERDRUM_H
#define CLOVERDRUM_H

#include <stddef.h>
#include <stdint.h>

/* A length, a count, a day or a kind: 8 bytes on every machine, also where size_t has 4. On x86-64 Linux it is the type size_t. */
typedef uint64_t cloverdrum_size;

/* Where size_t has 4 bytes, a size_t * for a number that an entry stores would have 8 written through it. C++ refuses it; from here on C compilers do too that
 * would only warn. */
#if defined(__GNUC__) && !defined(__cplusplus) && SIZE_MAX < UINT64_MAX
#pragma GCC diagnostic error "-Wincompatible-pointer-types"
#endif

#ifdef __cplusplus
extern "C" {
#endif

/* The version, 100 for 1.00. The hundreds change where a session's bytes, the profile file or the parameters of an entry do, else the last two digits:
 * versions with the same hundreds take each other's sessions and files. CHANGELOG.md has an entry for each. */
#define CLOVERDRUM_VERSION 205

/* Bounds of an entry. */
#define CLOVERDRUM_MOST_DAYS 512
#define CLOVERDRUM_MOST_CUTS 512 /* in a file or a sheet */
#define CLOVERDRUM_LOWEST_POINT (-1000)
#define CLOVERDRUM_HIGHEST_POINT 4000
#define CLOVERDRUM_LOWEST_RISE (-2000)
#define CLOVERDRUM_HIGHEST_RISE 2000
#define CLOVERDRUM_LOWEST_TOTAL (-512000)
#define CLOVERDRUM_HIGHEST_TOTAL 2048000

/* Bytes of a session, of a list for any profile, of a list for any file's or sheet's cuts, of one for any sheet's answers, and of the longest file. */
#define CLOVERDRUM_SESSION_BYTES 5142
#define CLOVERDRUM_LIST_BYTES (2 * CLOVERDRUM_MOST_DAYS)
#define CLOVERDRUM_CUTS_BYTES (8 * CLOVERDRUM_MOST_CUTS)
#define CLOVERDRUM_ANSWERS_BYTES (4 * CLOVERDRUM_MOST_CUTS)
#define CLOVERDRUM_FILE_BYTES (18 + 6 * CLOVERDRUM_MOST_DAYS + 8 * CLOVERDRUM_MOST_CUTS)

/* Refusals. */
enum cloverdrum_refusal {
    CLOVERDRUM_OK = 0,
    CLOVERDRUM_BAD_COUNT = 1,         /* the day count is 0 or over 512; more than 512 cuts in a file or a sheet */
    CLOVERDRUM_BAD_LENGTH = 2,        /* a list is too short or of the wrong length; a session of another length */
    CLOVERDRUM_BAD_POINT = 3,         /* a point outside -1,000 to 4,000 */
    CLOVERDRUM_BAD_RISE = 4,          /* a rise outside -2,000 to 2,000 */
    CLOVERDRUM_BAD_TOTAL = 5,         /* a total bound outside -512,000 to 2,048,000 */
    CLOVERDRUM_BAD_RANGE = 6,         /* a floor above its ceiling, of a day or of the total */
    CLOVERDRUM_BAD_DAY = 7,           /* a day that is not in the profile */
    CLOVERDRUM_NO_SCHEDULE = 8,       /* no schedule exists */
    CLOVERDRUM_SPENT = 9,             /* the session is spent: an earlier cut left no schedule */
    CLOVERDRUM_OUTSIDE_RANGE = 10,    /* the value is outside the present range of the day or the total */
    CLOVERDRUM_BAD_FILE = 11,         /* the file's length or an offset in it is wrong */
    CLOVERDRUM_BAD_KIND = 12,         /* an unknown kind of cut, a last rise in a file that is not 0, or a total cut whose day is not 0 */
    CLOVERDRUM_BAD_FIRST_DAY = 13,    /* the first counted day is not in the profile */
    CLOVERDRUM_SHORT_ANSWERS = 14     /* the list for a sheet's answers is shorter than the sheet */
};

/* Kinds of cut. */
enum cloverdrum_kind {
    CLOVERDRUM_DAY_FLOOR = 0,
    CLOVERDRUM_DAY_CEILING = 1,
    CLOVERDRUM_TOTAL_FLOOR = 2,
    CLOVERDRUM_TOTAL_CEILING = 3
};

/* Rules that a schedule may break. */
enum cloverdrum_rule {
    CLOVERDRUM_KEPT = 0,
    CLOVERDRUM_BROKEN_DAY = 1,
    CLOVERDRUM_BROKEN_RISE = 2,
    CLOVERDRUM_BROKEN_TOTAL = 3
};

/* CLOVERDRUM_SESSION_BYTES, as the library has it. */
cloverdrum_size cloverdrum_session_bytes(void);

/* Opens a profile: on 0 all bytes of the session are written, with every range tightened. `rises` has the least rise from day i to day i + 1 at place i; the
 * days from first_counted_day on, 0 to n - 1, count in the total.
 * Refusals, in order: 2 (a session of another length); 1 (days is 0 or over 512); 2 (floors or ceilings not n long, rises not n - 1); 3 (a floor or a
 * ceiling); 4; 5 (total_floor or total_ceiling); 6; 13; 8.
 * A refusal leaves every byte of the session. */
uint8_t cloverdrum_open(uint8_t *session, cloverdrum_size session_length, cloverdrum_size days, const uint8_t *floors, cloverdrum_size floors_length,
                        const uint8_t *ceilings, cloverdrum_size ceilings_length, const uint8_t *rises, cloverdrum_size rises_length, int32_t total_floor,
                        int32_t total_ceiling, cloverdrum_size first_counted_day);

/* Cuts one range of a session, and tightens every other: the day's setpoint, or the total, is to be at least (floors) or at most (ceilings) the value.
 * `day` is 0 for the total's kinds. A cut that is looser than the present range is accepted and changes nothing. On 0 *changed_days is the number of days
 * whose floor or ceiling differs from before, and the list `changed` begins with these days, each one time, the largest loss first, and equal losses by day,
 * the lowest first. A day's loss is the number of points that its range lost: its width, ceiling less floor, before the cut less that after it. The list has
 * to be lent whether the caller reads it or not. `kind` is a cloverdrum_kind.
 * Refusals, in order: 2 (a session of another length); 12 (an unknown kind, or a total's cut whose day is not 0); 7 (of a day's cut); 3 (a day's value);
 * 5 (a total's value); 2 (the list for changed days shorter than n); 9; 8 (the session is now spent, and shows the ranges that it had when opened).
 * A refusal leaves the list, and all but 8 leave every byte of the session. */
uint8_t cloverdrum_cut(uint8_t *session, cloverdrum_size session_length, cloverdrum_size kind, cloverdrum_size day, int32_t value, uint8_t *changed,
                       cloverdrum_size changed_length, cloverdrum_size *changed_days);

/* Makes a sheet of up to 512 cuts in one call: the session and the answers are those of single calls of cloverdrum_cut in that order, each with a list of n
 * places, refused ones included. `cuts` has m = cuts_length / 8 cuts, rounded down, as cloverdrum_read_file gives them. On 0 the list `answers` begins with m
 * answers, each what its cut is refused with (12, 7, 3, 5, 9 or 8) and 0 days, or 0 and the number of days that it changed. *changed_days is the number of
 * days whose floor or ceiling differs between the start and the end of the sheet, and the list `changed` begins with these days, in the order of
 * cloverdrum_cut: a day's loss is its width at the start less that at the end. If the session ends spent, the number is 0 and this list is left as it came. A
 * spent session takes a sheet too, and each cut has its answer.
 * Refusals, in order: 2 (a session of another length); 1 (more than 512 cuts); 14 (the list of answers under 4m bytes); 2 (the list for changed days shorter
 * than n); 2 (a list of cuts whose length is no multiple of 8).
 * A refused sheet makes no cut, and leaves both lists and every byte of the session. */
uint8_t cloverdrum_cut_sheet(uint8_t *session, cloverdrum_size session_length, const uint8_t *cuts, cloverdrum_size cuts_length, uint8_t *answers,
                             cloverdrum_size answers_length, uint8_t *changed, cloverdrum_size changed_length, cloverdrum_size *changed_days);

/* Reads the ranges of a session: the floor and the ceiling of each day into the lists, those of the total, and whether the session is spent (1) or not (0).
 * A spent session shows the ranges that it had when opened.
 * Refusals, in order: 2 (a session of another length); 2 (a list shorter than n).
 * A refusal leaves both lists. */
uint8_t cloverdrum_read(const uint8_t *session, cloverdrum_size session_length, uint8_t *floors, cloverdrum_size floors_length, uint8_t *ceilings,
                        cloverdrum_size ceilings_length, int32_t *total_floor, int32_t *total_ceiling, uint8_t *spent);

/* Writes a schedule that keeps every range and rise of the session and has this value on this day. Which one it is, is not said.
 * Refusals, in order: 2 (a session of another length); 2 (the list not n long); 7; 9; 10.
 * A refusal leaves the list. */
uint8_t cloverdrum_write_day(const uint8_t *session, cloverdrum_size session_length, cloverdrum_size day, int32_t value, uint8_t *schedule,
                             cloverdrum_size schedule_length);

/* Writes a schedule that keeps every range and rise of the session and has this total.
 * Refusals, in order: 2 (a session of another length); 2 (the list not n long); 9; 10.
 * A refusal leaves the list. */
uint8_t cloverdrum_write_total(const uint8_t *session, cloverdrum_size session_length, int32_t value, uint8_t *schedule, cloverdrum_size schedule_length);

/* Inspects a schedule that somebody wrote. On 0 *rule, a cloverdrum_rule, says whether it is kept or which rule it breaks first: days in order, then rises in
 * order, then the total; *place is the number of the day, or of the rise (from day *place to the next), and else 0. Days and the total are judged by the
 * session's present ranges. Setpoints may be any numbers of 2 bytes.
 * Refusals, in order: 2 (a session of another length); 2 (the list not n long); 9. */
uint8_t cloverdrum_inspect(const uint8_t *session, cloverdrum_size session_length, const uint8_t *schedule, cloverdrum_size schedule_length,
                           cloverdrum_size *rule, cloverdrum_size *place);

/* Reads a profile file into lists that cloverdrum_open and cloverdrum_cut take: n = *days floors and ceilings, n - 1 rises, and *cuts_count cuts of 8 bytes.
 * Values, and whether *first_counted_day is in the profile, are not judged: opening and cutting do that.
 * Refusals, in order: 11 (under 18 bytes); 1; 11 (offsets, length); 12; 2 (a list too short for what it would hold).
 * A refusal leaves all lists. */
uint8_t cloverdrum_read_file(const uint8_t *file, cloverdrum_size file_length, uint8_t *floors, cloverdrum_size floors_length, uint8_t *ceilings,
                             cloverdrum_size ceilings_length, uint8_t *rises, cloverdrum_size rises_length, uint8_t *cuts, cloverdrum_size cuts_length,
                             cloverdrum_size *days, cloverdrum_size *cuts_count, int32_t *total_floor, int32_t *total_ceiling,
                             cloverdrum_size *first_counted_day);

/* Writes a profile and its cuts as a profile file. On 0 *file_bytes is the file's length. The profile's lists are those of cloverdrum_open; `cuts` has 8 bytes
 * for each cut, and a length that is no multiple of 8 is 2 with the profile's lists. Whether a schedule exists is not judged.
 * Refusals, in order: 1 (days, or cuts_length / 8 rounded down, over 512, or days 0); 2 (the profile's lists); 3 (a floor or a ceiling); 4; 5 (total_floor or
 * total_ceiling); 6; 13; of each cut in order 12 (an unknown kind, or a total's cut whose day is not 0); 7 (of a day's cut); 3 (a day's value); 5 (a total's
 * value); 2 (the output too short).
 * A refusal leaves every byte of the file. */
uint8_t cloverdrum_write_file(cloverdrum_size days, const uint8_t *floors, cloverdrum_size floors_length, const uint8_t *ceilings,
                              cloverdrum_size ceilings_length, const uint8_t *rises, cloverdrum_size rises_length, int32_t total_floor, int32_t total_ceiling,
                              cloverdrum_size first_counted_day, const uint8_t *cuts, cloverdrum_size cuts_length, uint8_t *file, cloverdrum_size file_length,
                              cloverdrum_size *file_bytes);

#ifdef __cplusplus
}
#endif

#endif

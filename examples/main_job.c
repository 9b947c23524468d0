/* The main job, as firmware does it: reads a profile file, opens its profile, makes its cuts in order, and prints the ranges as the program `ranges` does:
 * `total FLOOR CEILING`, then `day NUMBER FLOOR CEILING` for each day, in points; or `refused N`, the first refusal that it meets.
 *
 *     ./library
 *     gcc -Iinclude -o target/main_job examples/main_job.c target/staticlib/libcloverdrum.a && target/main_job examples/lager.profile
 *
 * Without a name it reads standard input. The exit status is that of ./ranges. */
#include "cloverdrum.h"

#include <stdio.h>

enum exit_status { SHOWN = 0, REFUSED = 1, NO_INPUT = 2, NO_OUTPUT = 3 };

/* The bytes of a cut, and where in them its fields stand. */
enum { CUT_BYTES = CLOVERDRUM_CUTS_BYTES / CLOVERDRUM_MOST_CUTS, CUT_KIND = 0, CUT_DAY = 2, CUT_VALUE = 4 };

/* A file as it was read. One byte more than the longest file has is enough to refuse a longer one. */
struct input {
    size_t length;
    uint8_t bytes[CLOVERDRUM_FILE_BYTES + 1];
};

/* What a file says. */
struct profile {
    cloverdrum_size days, first_counted_day, cuts_count;
    int32_t total_floor, total_ceiling;
    uint8_t floors[CLOVERDRUM_LIST_BYTES], ceilings[CLOVERDRUM_LIST_BYTES], rises[CLOVERDRUM_LIST_BYTES], cuts[CLOVERDRUM_CUTS_BYTES];
};

/* Numbers have their low byte first, whatever the machine's order is. */
static uint16_t unsigned_at(const uint8_t *bytes)
{
    return (uint16_t)(bytes[0] + 256u * bytes[1]);
}

static int32_t signed_at(const uint8_t *bytes)
{
    uint32_t bits = unsigned_at(bytes) | (uint32_t)unsigned_at(bytes + 2) << 16;
    return bits <= INT32_MAX ? (int32_t)bits : -(int32_t)(UINT32_MAX - bits) - 1;
}

static int32_t point_at(const uint8_t *list, size_t place)
{
    int32_t bits = unsigned_at(list + 2 * place);
    return bits <= INT16_MAX ? bits : bits - UINT16_MAX - 1;
}

/* Reads a file, or standard input where there is no name. Answers whether it could. */
static int read_input(const char *name, struct input *input)
{
    FILE *file = name ? fopen(name, "rb") : stdin;
    int failed;
    if (!file) {
        perror(name);
        return 0;
    }
    input->length = fread(input->bytes, 1, sizeof input->bytes, file);
    failed = ferror(file);
    if (failed)
        perror(name ? name : "standard input");
    if (name)
        fclose(file);
    return !failed;
}

/* From here on each answers 0, or the number of the first refusal. */
static unsigned read_profile(const struct input *input, struct profile *profile)
{
    return cloverdrum_read_file(input->bytes, input->length, profile->floors, sizeof profile->floors, profile->ceilings, sizeof profile->ceilings,
                                profile->rises, sizeof profile->rises, profile->cuts, sizeof profile->cuts, &profile->days, &profile->cuts_count,
                                &profile->total_floor, &profile->total_ceiling, &profile->first_counted_day);
}

static unsigned open_session(const struct profile *profile, uint8_t *session)
{
    size_t list_bytes = 2 * profile->days;
    return cloverdrum_open(session, CLOVERDRUM_SESSION_BYTES, profile->days, profile->floors, list_bytes, profile->ceilings, list_bytes, profile->rises,
                           list_bytes - 2, profile->total_floor, profile->total_ceiling, profile->first_counted_day);
}

static unsigned make_cuts(const struct profile *profile, uint8_t *session)
{
    static uint8_t changed[CLOVERDRUM_LIST_BYTES];
    cloverdrum_size i, changed_days;
    for (i = 0; i < profile->cuts_count; i++) {
        const uint8_t *cut = profile->cuts + CUT_BYTES * i;
        unsigned refusal = cloverdrum_cut(session, CLOVERDRUM_SESSION_BYTES, unsigned_at(cut + CUT_KIND), unsigned_at(cut + CUT_DAY),
                                          signed_at(cut + CUT_VALUE), changed, sizeof changed, &changed_days);
        if (refusal != CLOVERDRUM_OK)
            return refusal;
    }
    return CLOVERDRUM_OK;
}

static unsigned print_ranges(const uint8_t *session, size_t days)
{
    static uint8_t floors[CLOVERDRUM_LIST_BYTES], ceilings[CLOVERDRUM_LIST_BYTES];
    int32_t total_floor, total_ceiling;
    uint8_t spent;
    size_t day;
    unsigned refusal =
        cloverdrum_read(session, CLOVERDRUM_SESSION_BYTES, floors, sizeof floors, ceilings, sizeof ceilings, &total_floor, &total_ceiling, &spent);
    if (refusal != CLOVERDRUM_OK)
        return refusal;
    printf("total %ld %ld\n", (long)total_floor, (long)total_ceiling);
    for (day = 0; day < days; day++)
        printf("day %u %ld %ld\n", (unsigned)day, (long)point_at(floors, day), (long)point_at(ceilings, day));
    return CLOVERDRUM_OK;
}

static unsigned do_main_job(const struct input *input)
{
    static struct profile profile;
    static uint8_t session[CLOVERDRUM_SESSION_BYTES];
    unsigned refusal = read_profile(input, &profile);
    if (refusal == CLOVERDRUM_OK)
        refusal = open_session(&profile, session);
    if (refusal == CLOVERDRUM_OK)
        refusal = make_cuts(&profile, session);
    if (refusal == CLOVERDRUM_OK)
        refusal = print_ranges(session, profile.days);
    return refusal;
}

int main(int argc, char **argv)
{
    static struct input input;
    unsigned refusal;
    if (argc > 2) {
        fprintf(stderr, "usage: main_job [FILE]\n");
        return NO_INPUT;
    }
    if (!read_input(argc == 2 ? argv[1] : NULL, &input))
        return NO_INPUT;
    refusal = do_main_job(&input);
    if (refusal != CLOVERDRUM_OK)
        printf("refused %u\n", refusal);
    /* Printing is buffered: an error in any of it shows here at the latest. */
    if (fflush(stdout) != 0 || ferror(stdout)) {
        perror("standard output");
        return NO_OUTPUT;
    }
    return refusal == CLOVERDRUM_OK ? SHOWN : REFUSED;
}

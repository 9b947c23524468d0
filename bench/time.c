/* Prints the median time of each load in nanoseconds, on the first profile: load, day count, and a time for each side. */
#include "calls.h"

#include <stdio.h>
#include <stdlib.h>
#include <time.h>

enum { TIMED = 2001 };

static int by_size(const void *a, const void *b)
{
    int64_t x = *(const int64_t *)a, y = *(const int64_t *)b;
    return (x > y) - (x < y);
}

static int64_t now(void)
{
    struct timespec t;
    clock_gettime(CLOCK_MONOTONIC, &t);
    return (int64_t)t.tv_sec * 1000000000 + t.tv_nsec;
}

static int64_t median_time(enum side side, const struct call *load)
{
    static int64_t times[TIMED];
    prepare(load);
    for (size_t k = 0; k < TIMED; k++) {
        restore();
        int64_t start = now();
        int answer = make(side, load);
        times[k] = now() - start;
        if (answer != CLOVERDRUM_OK)
            fail("another answer");
    }
    qsort(times, TIMED, sizeof *times, by_size);
    return times[TIMED / 2];
}

int main(void)
{
    for (size_t load = 0; load < LOADS; load++)
        for (size_t size = 0; size < SIZES; size++) {
            open_sides(0, sizes[size]);
            printf("%s %d", calls[load].name, (int)profile.days);
            for (enum side side = LIBRARY; side < SIDES; side++)
                printf(" %lld", (long long)median_time(side, &calls[load]));
            printf("\n");
        }
    return 0;
}

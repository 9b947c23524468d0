/* Prints what each call copies and sets by memcpy, memmove and memset, at each day count: profile, day count, call, number of calls of these three, bytes
 * copied, bytes set. Linked so that each of the three is wrapped (ld --wrap); they count while an entry runs. */
#include "calls.h"

#include <stdio.h>

static bool counting;
static size_t made, copied, set;

void *__real_memcpy(void *to, const void *from, size_t bytes);
void *__real_memmove(void *to, const void *from, size_t bytes);
void *__real_memset(void *to, int byte, size_t bytes);
void *__wrap_memcpy(void *to, const void *from, size_t bytes);
void *__wrap_memmove(void *to, const void *from, size_t bytes);
void *__wrap_memset(void *to, int byte, size_t bytes);

static void count_copy(size_t bytes)
{
    made += counting;
    copied += counting ? bytes : 0;
}

void *__wrap_memcpy(void *to, const void *from, size_t bytes)
{
    count_copy(bytes);
    return __real_memcpy(to, from, bytes);
}

void *__wrap_memmove(void *to, const void *from, size_t bytes)
{
    count_copy(bytes);
    return __real_memmove(to, from, bytes);
}

void *__wrap_memset(void *to, int byte, size_t bytes)
{
    made += counting;
    set += counting ? bytes : 0;
    return __real_memset(to, byte, bytes);
}

static void count(const struct call *call)
{
    prepare(call);
    made = copied = set = 0;
    counting = true;
    int answer = make(LIBRARY, call);
    counting = false;
    if (answer != call->answer)
        fail("another answer");
    printf("%s %d %s %zu %zu %zu\n", profile.name, (int)profile.days, call->name, made, copied, set);
}

int main(void)
{
    for (size_t which = 0; which < PROFILES + ORDERS; which++)
        for (size_t size = 0; size < SIZES; size++) {
            open_sides(which, sizes[size]);
            for (const struct call *call = calls_of(which); call->entry != NOTHING; call++)
                count(call);
        }
    return 0;
}

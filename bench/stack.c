/* Prints the deepest stack of each call in bytes, at 512 days: profile, call, bytes. A call is made on a stack that is filled with one byte, and what it
 * overwrote is counted in whole words; what the call of nothing takes is taken away. */
#include "calls.h"

#include <stdio.h>
#include <string.h>
#include <ucontext.h>

enum { STACK = 1 << 18, FILL = 0xa5, WORD = 8 };

static uint8_t stack[STACK] __attribute__((aligned(PAGE)));
static ucontext_t back, inside;
static const struct call *called;

static void call_inside(void)
{
    if (make(LIBRARY, called) != called->answer)
        fail("another answer");
}

static size_t deepest(const struct call *call)
{
    size_t untouched = 0;
    called = call;
    prepare(call);
    memset(stack, FILL, sizeof stack);
    getcontext(&inside);
    inside.uc_stack.ss_sp = stack;
    inside.uc_stack.ss_size = sizeof stack;
    inside.uc_link = &back;
    makecontext(&inside, call_inside, 0);
    swapcontext(&back, &inside);
    while (untouched < sizeof stack && stack[untouched] == FILL)
        untouched++;
    return sizeof stack - untouched / WORD * WORD;
}

int main(void)
{
    for (size_t which = 0; which < PROFILES + ORDERS; which++) {
        open_sides(which, DAYS);
        size_t nothing = deepest(&calls[CALLS - 1]);
        for (const struct call *call = calls_of(which); call->entry != NOTHING; call++)
            printf("%s %s %zu\n", profile.name, call->name, deepest(call) - nothing);
    }
    return 0;
}

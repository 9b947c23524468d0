/* Prints what each call takes on the board, on each profile, for each side that has it: profile, day count, call, side, instructions; and at 512 days, for the
 * library: profile, call, bytes of stack. Needs qemu's -icount shift=10, where an instruction takes 1,024 ns of the board's time. */
#include "../bench/calls.h"

#include <stdio.h>

/* The board's first timer counts down from 2^32 - 1, 25 million times a second: 128 counts are 5 instructions, and a call may take 167 million. */
#define TIMER_CONTROL (*(volatile uint32_t *)0x40000000)
#define TIMER (*(volatile uint32_t *)0x40000004)
#define TIMER_RELOAD (*(volatile uint32_t *)0x40000008)
enum { TIMER_ON = 1, COUNTS = 128, INSTRUCTIONS = 5 };

static uint32_t counted_since(uint32_t start)
{
    return (uint32_t)((uint64_t)(start - TIMER) * INSTRUCTIONS / COUNTS);
}

/* ---- instructions */

static uint32_t count(enum side side, const struct call *call)
{
    uint32_t start = TIMER;
    make(side, call);
    return counted_since(start);
}

static void count_sides(const struct call *call, uint32_t nothing)
{
    prepare(call);
    for (enum side side = LIBRARY; side < SIDES; side++)
        if (has(side, call))
            printf("%s %d %s %s %ld\n", profile.name, (int)profile.days, call->name, side_names[side], (long)(count(side, call) - nothing));
    check(call);
}

/* A loop of two instructions. */
static void calibrate(void)
{
    enum { TURNS = 100000, OTHERS = 16 };
    uint32_t start = TIMER, turns = TURNS, counted;
    __asm__ volatile(".syntax unified\n1: subs %0, #1\n bne 1b" : "+l"(turns)::"cc");
    counted = counted_since(start);
    if (counted < 2 * TURNS || counted > 2 * TURNS + OTHERS)
        fail("the timer does not count instructions");
}

/* ---- stack: what is below the stack pointer is filled with one word, and what a call overwrote is counted */

enum { FILL = 0x5a5a5a5a, BELOW = 64 };
extern uint32_t stack_bottom[];

static uint32_t deepest(const struct call *call)
{
    volatile uint32_t *word = stack_bottom;
    uint32_t top;
    prepare(call);
    __asm__ volatile("mov %0, sp" : "=r"(top));
    while ((uint32_t)word < top - BELOW)
        *word++ = FILL;
    if (make(LIBRARY, call) != call->answer)
        fail("another answer");
    for (word = stack_bottom; *word == FILL;)
        word++;
    return top - (uint32_t)word;
}

int main(void)
{
    const struct call *nothing = &calls[CALLS - 1];
    TIMER_RELOAD = UINT32_MAX;
    TIMER = UINT32_MAX;
    TIMER_CONTROL = TIMER_ON;
    doing = "calibrating";
    calibrate();
    for (size_t which = 0; which < PROFILES + ORDERS; which++)
        for (size_t size = 0; size < SIZES; size++) {
            open_sides(which, sizes[size]);
            for (const struct call *call = calls_of(which); call->entry != NOTHING; call++)
                count_sides(call, count(LIBRARY, nothing));
            for (const struct call *call = calls_of(which); call->entry != NOTHING && profile.days == DAYS; call++)
                printf("%s %s %lu\n", profile.name, call->name, (unsigned long)(deepest(call) - deepest(nothing)));
        }
    return 0;
}

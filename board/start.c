/* Starts a program on qemu's mps2-an386: vectors, cleared memory, the floating-point unit where the program is compiled for one, and the words of the command
 * line, which come by semihosting, as files and standard output do (newlib's rdimon). An access that is not aligned is a fault, and a fault ends the program
 * with a line and the exit status 1. */
#include <stdint.h>
#include <stdlib.h>
#include <string.h>

enum { WORDS = 8, LINE = 256 };

/* Registers of the core (Armv7-M): configuration, access to coprocessors. */
#define CONFIGURATION (*(volatile uint32_t *)0xe000ed14)
#define COPROCESSORS (*(volatile uint32_t *)0xe000ed88)
enum { TRAP_UNALIGNED = 1 << 3, FLOATING_POINT = 0xf << 20 };

/* Calls of semihosting, and the reason for a stop that qemu answers with the exit status 1. */
enum { SYS_WRITE0 = 0x04, SYS_GET_CMDLINE = 0x15, SYS_EXIT = 0x18, RUN_TIME_ERROR = 0x20023 };

extern uint8_t bss_start[], bss_end[], stack_top[];
int main(int argc, char **argv);
void initialise_monitor_handles(void);
void reset(void);
void _init(void);
void _fini(void);

static int host(int call, const void *argument)
{
    register int r0 __asm__("r0") = call;
    register const void *r1 __asm__("r1") = argument;
    __asm__ volatile("bkpt 0xab" : "+r"(r0) : "r"(r1) : "memory");
    return r0;
}

static void fault(void)
{
    host(SYS_WRITE0, "fault\n");
    host(SYS_EXIT, (const void *)RUN_TIME_ERROR);
    for (;;) {
    }
}

static int words_of(char *line, char **words)
{
    int count = 0;
    for (char *word = strtok(line, " "); word && count < WORDS; word = strtok(0, " "))
        words[count++] = word;
    return count;
}

void reset(void)
{
    static char line[LINE], *words[WORDS];
    struct {
        char *at;
        int size;
    } asked = {line, sizeof line};
    memset(bss_start, 0, (size_t)(bss_end - bss_start));
#ifdef __ARM_FP
    COPROCESSORS |= FLOATING_POINT;
#endif
    CONFIGURATION |= TRAP_UNALIGNED;
    initialise_monitor_handles();
    host(SYS_GET_CMDLINE, &asked);
    int count = words_of(line, words);
    exit(main(count, words));
}

/* newlib calls these around a program. */
void _init(void)
{
}

void _fini(void)
{
}

__attribute__((section(".vectors"), used)) static const void *const vectors[] = {
    stack_top, (const void *)reset, (const void *)fault, (const void *)fault, (const void *)fault, (const void *)fault, (const void *)fault,
};

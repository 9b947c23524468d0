/* Loads a word from an address that is not aligned. On the board that is a fault, and the program does not get to its end. */
#include <stdint.h>

int main(void)
{
    static uint32_t words[2];
    uint32_t word;
    __asm__ volatile("ldr %0, [%1]" : "=l"(word) : "l"((uint8_t *)words + 1));
    (void)word;
    return 0;
}

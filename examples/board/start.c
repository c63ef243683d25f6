/*
 * What a Cortex-M0 runs before main: the vector table, which the core reads at address 0, and the reset that it names. The names of places come
 * from board.ld. C++ constructors are not run.
 */
#include <stdint.h>

extern uint32_t stack_top[], data_from[], data_start[], data_end[], bss_start[], bss_end[];

int main(void);

void reset(void)
{
    const uint32_t *from = data_from;

    for (uint32_t *to = data_start; to < data_end; to++)
        *to = *from++;
    for (uint32_t *to = bss_start; to < bss_end; to++)
        *to = 0;
    main();
    for (;;)
        ;
}

/* A charger takes the voltage off its ports here. Weak, so that another file may have its own, as outside.c. */
__attribute__((weak)) void fault(void)
{
    for (;;)
        ;
}

/* An interrupt is a fault until another file has a function of its name. */
__attribute__((weak)) void tick(void)
{
    fault();
}

/* The interrupts of your chip follow behind these sixteen. */
__attribute__((section(".vectors"), used)) static const uintptr_t vectors[16] = {
    [0] = (uintptr_t)stack_top,
    [1] = (uintptr_t)reset,
    [2] = (uintptr_t)fault, /* not maskable */
    [3] = (uintptr_t)fault, /* hard fault */
    [11] = (uintptr_t)fault, /* supervisor call */
    [14] = (uintptr_t)fault, /* pending supervisor call */
    [15] = (uintptr_t)tick,
};

/*
 * What is outside, for the emulator: a tick of the timer plays the USB PD stack. It puts the bytes of the events below into one queue and prints
 * what comes back in the other. On a board your interrupts do this, and this file goes.
 *
 * It prints and ends by semihosting: a breakpoint that the emulator, or a debugger, takes for a call.
 */
#include "queue.h"

enum { WRITE_CHARACTER = 0x03, EXIT = 0x18, ENDED_BADLY = 0x20023, ENDED_WELL = 0x20026 };

static void ask_host(uint32_t operation, uintptr_t argument)
{
    register uint32_t r0 __asm__("r0") = operation;
    register uintptr_t r1 __asm__("r1") = argument;

    __asm__ volatile("bkpt 0xAB" : "+r"(r0) : "r"(r1) : "memory");
}

static void print(char c)
{
    ask_host(WRITE_CHARACTER, (uintptr_t)&c);
}

void fault(void)
{
    ask_host(EXIT, ENDED_BADLY);
}

static void print_byte(uint8_t byte)
{
    const char digits[] = "0123456789ABCDEF";

    print(' ');
    print(digits[byte >> 4]);
    print(digits[byte & 15]);
}

static const struct {
    uint8_t length, bytes[6];
} events[] = {
    { 4, { 'A', 1, 0xF4, 0x01 } },             /* a 5 A cable */
    { 6, { 'R', 1, 0x45, 0x15, 0x05, 0x40 } }, /* 20 V at 3.25 A */
    { 2, { 'P', 1 } },
    { 4, { 'A', 2, 0xF4, 0x01 } },
    { 6, { 'R', 2, 0x2C, 0xB1, 0x04, 0x20 } }, /* 9 V at 3 A */
    { 2, { 'P', 2 } },
    { 6, { 'R', 1, 0xC8, 0x20, 0x03, 0x20 } }, /* 9 V at 2 A */
    { 6, { 'R', 2, 0xAF, 0xBC, 0x02, 0x40 } }, /* 20 V at 1.75 A, but port 1 is not at 9 V yet */
    { 2, { 'P', 1 } },                         /* port 2 can have more */
    { 6, { 'R', 2, 0x45, 0x15, 0x05, 0x40 } }, /* 20 V at 3.25 A */
    { 2, { 'P', 2 } },
    { 6, { 'R', 1, 0x45, 0x15, 0x05, 0x40 } }, /* on its list, but port 2 has the power now */
    { 6, { 'R', 1, 0x45, 0x15, 0x05, 0x40 } }, /* not on the new list */
    { 2, { 'D', 2 } },                         /* port 1 can have more */
    { 2, { 'D', 2 } },                         /* it is empty already */
    { 4, { 'A', 2, 0x05, 0x00 } },             /* 5 are 50 mA, and no cable */
    { 4, { 'A', 3, 0xF4, 0x01 } },             /* there is no port 3 */
    { 6, { 'R', 0, 0x2C, 0xB1, 0x04, 0x20 } }, /* and no port 0 */
    { 2, { 'P', 3 } },
    { 1, { 'X' } },
};

enum { EVENTS = sizeof events / sizeof events[0] };

static unsigned event;
static bool ready = true;

/* How many bytes of a message are still to come, and how many came behind its letter. */
static unsigned left, came;
static uint8_t letter;

static unsigned length_behind(uint8_t c)
{
    switch (c) {
    case 'L':
    case 'N':
    case 'F':
        return 2;
    case 'Y':
    case 'W':
    case '?':
        return 1;
    default:
        return 0;
    }
}

static void show(uint8_t byte)
{
    if (left == 0 && byte == '.') {
        ready = true;
        return;
    }
    if (left == 0) {
        print(' ');
        print(' ');
        print((char)byte);
        letter = byte;
        left = length_behind(byte);
        came = 0;
    } else {
        print_byte(byte);
        left--;
        came++;
        if (letter == 'L' && came == 2)
            left = 4 * byte;
    }
    if (left == 0)
        print('\n');
}

static void send_next(void)
{
    if (event == EVENTS)
        ask_host(EXIT, ENDED_WELL);
    for (unsigned i = 0; i < events[event].length; i++) {
        uint8_t byte = events[event].bytes[i];

        if (i == 0)
            print((char)byte);
        else
            print_byte(byte);
        /* The queue is empty: the charger is ready for an event when it has taken the one before. */
        (void)queue_put(&to_charger, byte);
    }
    print('\n');
    event++;
    ready = false;
}

void tick(void)
{
    uint8_t byte;

    while (queue_take(&to_stack, &byte))
        show(byte);
    if (ready)
        send_next();
}

/* SysTick, with an interrupt about every millisecond at 16 MHz. Most Cortex-M have it, and so has the emulated micro:bit. */
void outside_begin(void)
{
    volatile uint32_t *const control = (uint32_t *)0xE000E010, *const reload = (uint32_t *)0xE000E014, *const value = (uint32_t *)0xE000E018;

    *reload = 15999;
    *value = 0;
    *control = 7;
}

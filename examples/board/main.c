/*
 * A charger with two USB-C ports of 65 W that share 100 W, on a board without an operating system. The USB PD stack, or what drives your PD
 * controller, puts bytes into one queue and takes bytes from the other. Here outside.c plays it.
 *
 *   to the charger                                    back
 *   A port cable  a sink came; the cable carries      L port n words    send these n words as Source_Capabilities
 *                 so much, in 10 mA
 *   R port word   the sink sent this Request          Y port            send Accept, go to the new voltage, send PS_RDY, say P
 *                                                     W port            send Wait, or Reject where there is no contract yet
 *                                                     N port number     send Reject; the number is the refusal's
 *   P port        the port is at its new voltage      L port n words    for each other port that can have more now
 *   D port        the sink is gone, the voltage off   L port n words    likewise
 *
 * Ports count from 1. A cable is two bytes and a word four, the low byte first. Behind what comes back for an event stands a dot. F number
 * place is a refusal that no sink has a part in (README, "Whose fault a refusal is"): at 37 take the voltage off every port. ? byte is a byte
 * that begins no event. A hard reset is D and then A.
 */
#include "arinduleu.h"
#include "queue.h"

/* Powers are in half watts. */
enum { PORTS = 2, CAPACITY = ARIN_WATTS(100) };

/* Port maximum, and PPS wanted; the calls see to the rest. */
static struct arin_row rows[PORTS] = { { ARIN_WATTS(65), 0, 0, 0, 0 }, { ARIN_WATTS(65), 0, 0, 0, 0 } };

/* The port that was told Y and is not at its new voltage yet, or 0. What it gives up counts as free from Y on, and is not there before P. */
static uint8_t moving;

struct queue to_charger, to_stack;

/* outside.c: lets the bytes come. */
void outside_begin(void);

/* start.c, or your own. */
void fault(void);

static void hold_interrupts(void)
{
    __asm__ volatile("cpsid i" : : : "memory");
}

static void release_interrupts(void)
{
    __asm__ volatile("cpsie i" : : : "memory");
}

/*
 * With interrupts held, since one that came between the look into the queue and the sleep would be slept through. Held, it still ends the
 * sleep, and is served when they are released.
 */
static void wait_for_interrupt(void)
{
    __asm__ volatile("dsb\n wfi" : : : "memory");
    release_interrupts();
    __asm__ volatile("isb" : : : "memory");
    hold_interrupts();
}

static uint8_t take(void)
{
    uint8_t byte;

    hold_interrupts();
    while (!queue_take(&to_charger, &byte))
        wait_for_interrupt();
    release_interrupts();
    return byte;
}

static uint16_t take_cable(void)
{
    uint8_t low = take();

    return (uint16_t)(low | take() << 8);
}

static uint32_t take_word(void)
{
    uint32_t word = 0;

    for (int shift = 0; shift < 32; shift += 8)
        word |= (uint32_t)take() << shift;
    return word;
}

static void put(uint8_t byte)
{
    hold_interrupts();
    while (!queue_put(&to_stack, byte))
        wait_for_interrupt();
    release_interrupts();
}

static void put_word(uint32_t word)
{
    for (int shift = 0; shift < 32; shift += 8)
        put((uint8_t)(word >> shift));
}

static void put_fault(struct arin_verdict v)
{
    put('F');
    put(v.number);
    put(v.place);
}

static void put_list(uint8_t port, struct arin_listing l)
{
    if (l.verdict.number != ARIN_SUCCESS) {
        put_fault(l.verdict);
        return;
    }
    put('L');
    put(port);
    put(l.list.count);
    for (int i = 0; i < l.list.count; i++)
        put_word(l.list.words[i]);
}

/* A port that has its maximum, or all that the others leave, gets no new list: it would only make the sink ask again. */
static void offer_to_others(uint8_t but)
{
    struct arin_remaining_power left = arin_remaining(rows, PORTS, CAPACITY);

    if (left.verdict.number != ARIN_SUCCESS) {
        put_fault(left.verdict);
        return;
    }
    for (uint8_t port = 1; port <= PORTS; port++) {
        struct arin_row row = rows[port - 1];

        if (port == but || row.cable == 0 || row.present == row.max || left.power + row.held <= row.present)
            continue;
        put_list(port, arin_advertise(rows, PORTS, CAPACITY, port));
    }
}

/* The port is at its voltage, or has none: what it gave up can be given to others. */
static void settled(uint8_t port)
{
    if (port < 1 || port > PORTS) {
        put_fault((struct arin_verdict){ ARIN_NO_SUCH_PORT, 0 });
        return;
    }
    if (port == moving)
        moving = 0;
    if (moving == 0)
        offer_to_others(port);
}

static void answer(uint8_t port, uint32_t word)
{
    struct arin_verdict v;

    if (moving != 0 && moving != port) {
        put('W');
        put(port);
        return;
    }
    v = arin_request(rows, PORTS, CAPACITY, port, word);
    switch (v.number) {
    case ARIN_SUCCESS:
        moving = port;
        put('Y');
        put(port);
        break;
    case ARIN_NO_POWER_NOW:
        put('W');
        put(port);
        put_list(port, arin_advertise(rows, PORTS, CAPACITY, port));
        break;
    case ARIN_ROW_COUNT:
    case ARIN_CAPACITY:
    case ARIN_NO_SUCH_PORT:
    case ARIN_ROWS_NOT_SOUND:
        put_fault(v);
        break;
    default:
        put('N');
        put(port);
        put(v.number);
    }
}

static void detach(uint8_t port)
{
    struct arin_verdict v = arin_detach(rows, PORTS, CAPACITY, port);

    if (v.number == ARIN_SUCCESS)
        settled(port);
    else
        put_fault(v);
}

static void serve(uint8_t event)
{
    uint8_t port;

    switch (event) {
    case 'A':
        port = take();
        put_list(port, arin_attach(rows, PORTS, CAPACITY, port, take_cable()));
        break;
    case 'R':
        port = take();
        answer(port, take_word());
        break;
    case 'P':
        settled(take());
        break;
    case 'D':
        detach(take());
        break;
    default:
        put('?');
        put(event);
    }
    put('.');
}

int main(void)
{
    struct arin_verdict v = arin_set_up(rows, PORTS, CAPACITY);

    /* A constant above is wrong, and nothing can be served. */
    if (v.number != ARIN_SUCCESS)
        fault();
    outside_begin();
    for (;;)
        serve(take());
}

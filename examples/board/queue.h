/*
 * A queue of bytes between an interrupt and main, one on each side: one puts, the other takes. Neither waits, and neither has to hold the other
 * off, because each writes a count of its own. Two interrupts that put into one queue must not interrupt each other.
 */
#ifndef QUEUE_H
#define QUEUE_H

#include <stdbool.h>
#include <stdint.h>

/* A list of seven words takes 31 bytes. */
enum { QUEUE_ROOM = 64 };

_Static_assert((QUEUE_ROOM & (QUEUE_ROOM - 1)) == 0, "a power of two, since the counts run on past it");

struct queue {
    volatile uint8_t bytes[QUEUE_ROOM];
    volatile uint32_t put, taken;
};

/* False where there is no room; nothing is lost then, and the byte can be put later. */
static inline bool queue_put(struct queue *q, uint8_t byte)
{
    uint32_t put = q->put;

    if (put - q->taken == QUEUE_ROOM)
        return false;
    q->bytes[put % QUEUE_ROOM] = byte;
    q->put = put + 1;
    return true;
}

/* False where there is none. */
static inline bool queue_take(struct queue *q, uint8_t *byte)
{
    uint32_t taken = q->taken;

    if (taken == q->put)
        return false;
    *byte = q->bytes[taken % QUEUE_ROOM];
    q->taken = taken + 1;
    return true;
}

/* From the PD stack to the charger, and back. */
extern struct queue to_charger, to_stack;

#endif

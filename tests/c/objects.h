/*
 * What the programs share that check lists of objects: making these, and comparing answers that have a list. It is C and C++ at once,
 * as they are.
 */
#ifndef OBJECTS_H
#define OBJECTS_H

#include "checks.h"

/* ---- Making ---- */

static struct arin_flat_object no_object(uint8_t kind)
{
    static const struct arin_flat_object zero = { 0, 0, 0, 0, 0, 0, 0, 0, 0, 0, 0, 0, 0, 0 };
    struct arin_flat_object o = zero;

    o.kind = kind;
    return o;
}

static struct arin_flat_object fixed(uint8_t flags, uint16_t volts, uint16_t current)
{
    struct arin_flat_object o = no_object(ARIN_KIND_FIXED);

    o.flags = flags;
    o.volts = volts;
    o.current = current;
    return o;
}

static struct arin_flat_object battery(uint16_t max, uint16_t min, uint16_t power)
{
    struct arin_flat_object o = no_object(ARIN_KIND_BATTERY);

    o.max = max;
    o.min = min;
    o.power = power;
    return o;
}

static struct arin_flat_object variable(uint16_t max, uint16_t min, uint16_t current)
{
    struct arin_flat_object o = no_object(ARIN_KIND_VARIABLE);

    o.max = max;
    o.min = min;
    o.current = current;
    return o;
}

static struct arin_flat_object pps(uint8_t limited, uint16_t max, uint16_t min, uint16_t current)
{
    struct arin_flat_object o = no_object(ARIN_KIND_PPS);

    o.limited = limited;
    o.max100 = max;
    o.min100 = min;
    o.current50 = current;
    return o;
}

static struct arin_flat_object avs(uint8_t peak, uint16_t low, uint16_t high)
{
    struct arin_flat_object o = no_object(ARIN_KIND_AVS);

    o.peak = peak;
    o.low = low;
    o.high = high;
    return o;
}

/* The first objects of a list. Those behind them, past the count or not, are of no kind. */
static struct arin_flat_objects starting(uint8_t count, struct arin_flat_object a, struct arin_flat_object b,
                                         struct arin_flat_object c)
{
    struct arin_flat_objects list;
    int i;

    list.places[0] = a;
    list.places[1] = b;
    list.places[2] = c;
    for (i = 3; i < ARIN_LIST_PLACES; i++)
        list.places[i] = no_object(9);
    list.count = count;
    return list;
}

/* ---- Comparing ---- */

/* Success, the words that count, and zero past them. */
static int lists(struct arin_listing got, struct arin_words wanted)
{
    int i;

    if (!is(got.verdict, 0, 0) || got.list.count != wanted.count)
        return 0;
    for (i = 0; i < ARIN_LIST_PLACES; i++) {
        if (got.list.words[i] != (i < wanted.count ? wanted.words[i] : 0))
            return 0;
    }
    return 1;
}

static int no_list(struct arin_listing got, int number, int place)
{
    int i;

    for (i = 0; i < ARIN_LIST_PLACES; i++) {
        if (got.list.words[i] != 0)
            return 0;
    }
    return is(got.verdict, number, place) && got.list.count == 0;
}

static int is_object(struct arin_flat_object o, struct arin_flat_object w)
{
    return o.kind == w.kind && o.flags == w.flags && o.peak == w.peak && o.limited == w.limited && o.volts == w.volts &&
           o.max == w.max && o.min == w.min && o.power == w.power && o.current == w.current && o.max100 == w.max100 &&
           o.min100 == w.min100 && o.current50 == w.current50 && o.low == w.low && o.high == w.high;
}

static int reads(struct arin_flat_reading got, struct arin_flat_objects wanted)
{
    int i;

    if (!is(got.verdict, 0, 0) || got.list.count != wanted.count)
        return 0;
    for (i = 0; i < ARIN_LIST_PLACES; i++) {
        if (!is_object(got.list.places[i], i < wanted.count ? wanted.places[i] : no_object(0)))
            return 0;
    }
    return 1;
}

static int no_reading(struct arin_flat_reading got, int number, int place)
{
    int i;

    for (i = 0; i < ARIN_LIST_PLACES; i++) {
        if (!is_object(got.list.places[i], no_object(0)))
            return 0;
    }
    return is(got.verdict, number, place) && got.list.count == 0;
}

#endif

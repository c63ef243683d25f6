/*
 * The calls of arinduleu.h on sink lists, on good and on refused input. The values are worked out from the statement, "Sink lists". The file
 * is C and C++ at once, as calls.c is.
 */
#include "objects.h"

/* ---- Making ---- */

/* 5 V at 3 A with flags 41h, 9 V at 2 A; battery and variable 5 to 21 V at 50 W and 3 A; PPS 5 to 11 V at 3 A and 5 to 16 V at 2.4 A. */
static struct arin_words list_of_six(void)
{
    return words(6, 0x2081912C, 0x0002D0C8, 0x5A4190C8, 0x9A41912C, 0xC0DC323C, 0xC1403230);
}

/* The place past the count is AVS: a call that read it would refuse. */
static struct arin_flat_objects objects_of_six(void)
{
    struct arin_flat_objects list;

    list.places[0] = fixed(0x41, 100, 300);
    list.places[1] = fixed(0, 180, 200);
    list.places[2] = battery(420, 100, 200);
    list.places[3] = variable(420, 100, 300);
    list.places[4] = pps(0, 110, 50, 60);
    list.places[5] = pps(0, 160, 50, 48);
    list.places[6] = avs(0, 300, 0);
    list.count = 6;
    return list;
}

/* The object among figures that no call may look at: peak current, power limited, and all that its kind does not have. */
static struct arin_flat_object amid_ones(struct arin_flat_object own)
{
    struct arin_flat_object o = no_object(own.kind);

    o.flags = o.peak = o.limited = 255;
    o.volts = o.max = o.min = o.power = o.current = 65535;
    o.max100 = o.min100 = o.current50 = o.low = o.high = 65535;
    switch (own.kind) {
    case ARIN_KIND_FIXED:
        o.flags = own.flags;
        o.volts = own.volts;
        o.current = own.current;
        break;
    case ARIN_KIND_BATTERY:
        o.max = own.max;
        o.min = own.min;
        o.power = own.power;
        break;
    case ARIN_KIND_VARIABLE:
        o.max = own.max;
        o.min = own.min;
        o.current = own.current;
        break;
    case ARIN_KIND_PPS:
        o.max100 = own.max100;
        o.min100 = own.min100;
        o.current50 = own.current50;
        break;
    default:
        break;
    }
    return o;
}

/* ---- The shape ---- */

static void shapes(void)
{
    CHECK(is(arin_sink_shape(list_of_six()), ARIN_SUCCESS, 0));
    CHECK(is(arin_sink_shape(words(1, 0x0001912C, 0, 0, 0, 0, 0)), 0, 0));
    /* All flags of the first word. */
    CHECK(is(arin_sink_shape(words(1, 0x3F81912C, 0, 0, 0, 0, 0)), 0, 0));
    CHECK(is(arin_sink_shape(words(0, 0, 0, 0, 0, 0, 0)), ARIN_COUNT, 0));
    CHECK(is(arin_sink_shape(words(8, 0x0001912C, 0, 0, 0, 0, 0)), 10, 0));
    CHECK(is(arin_sink_shape(words(255, 0x0001912C, 0, 0, 0, 0, 0)), 10, 0));
    CHECK(is(arin_sink_shape(words(1, 0x0002D12C, 0, 0, 0, 0, 0)), ARIN_FIRST_NOT_FIXED_5_V, 1));
    CHECK(is(arin_sink_shape(words(1, 0xE0019000, 0, 0, 0, 0, 0)), 11, 1));
    CHECK(is(arin_sink_shape(after_5_v(0xD0000000)), ARIN_KIND_NOT_ALLOWED, 2));
    CHECK(is(arin_sink_shape(after_5_v(0xE0000000)), 12, 2));
    CHECK(is(arin_sink_shape(after_5_v(0xF0000000)), 12, 2));
    /* The kind of AVS comes before its reserved bits. */
    CHECK(is(arin_sink_shape(after_5_v(0xE3F00000)), 12, 2));
    CHECK(is(arin_sink_shape(words(3, 0x0001912C, 0x0004B12C, 0x0002D12C, 0, 0, 0)), ARIN_ORDER, 3));
    CHECK(is(arin_sink_shape(words(3, 0x0001912C, 0xC0DC323C, 0x5A4190C8, 0, 0, 0)), 14, 3));
    CHECK(is(arin_sink_shape(words(3, 0x0001912C, 0xC1403230, 0xC0DC323C, 0, 0, 0)), 14, 3));
    /* 20.05 V at 1 A, 20 V at 5.01 A, and PPS up to 21.1 V. */
    CHECK(is(arin_sink_shape(after_5_v(0x00064464)), ARIN_VOLTAGE_BOUND, 2));
    CHECK(is(arin_sink_shape(after_5_v(0x000641F5)), ARIN_POWER_OVER_100_W, 2));
    CHECK(is(arin_sink_shape(after_5_v(0xC1A6323C)), 15, 2));
    /* PPS has no bound of 100 W: 21 V at 6.35 A. */
    CHECK(is(arin_sink_shape(after_5_v(0xC1A4327F)), 0, 0));
}

/* Each bit of a word by itself. Those of peak current and power limited are fields of a source, and reserved for a sink. */
static void reserved_bits(void)
{
    int bit;

    for (bit = 20; bit < 30; bit++) {
        const uint32_t set = (uint32_t)1 << bit;

        CHECK(is(arin_sink_shape(words(1, 0x0001912C | set, 0, 0, 0, 0, 0)), bit < 23 ? ARIN_RESERVED_BIT : 0, bit < 23));
        CHECK(is(arin_sink_shape(after_5_v(0x0002D0C8 | set)), 13, 2));
    }
    for (bit = 0; bit < 28; bit++) {
        const uint32_t set = (uint32_t)1 << bit;
        const int reserved = bit == 7 || bit == 16 || bit >= 25;

        /* PPS from 0 to 0 V, which may have any bit of the maximum set that keeps it below 21 V. */
        if (bit < 7 || reserved || (bit >= 17 && bit < 24))
            CHECK(is(arin_sink_shape(after_5_v(0xC0000000 | set)), reserved ? 13 : 0, reserved ? 2 : 0));
    }
    CHECK(is(arin_shape(words(1, 0x0031912C, 0, 0, 0, 0, 0)), 0, 0));
    CHECK(is(arin_shape(after_5_v(0xC8DC323C)), 0, 0));
}

/* ---- Reading and writing ---- */

static void reading(void)
{
    struct arin_flat_object first;

    CHECK(reads(arin_sink_read(list_of_six()), objects_of_six()));
    CHECK(no_reading(arin_sink_read(words(0, 0, 0, 0, 0, 0, 0)), 10, 0));
    CHECK(no_reading(arin_sink_read(words(8, 0x0001912C, 0, 0, 0, 0, 0)), 10, 0));
    CHECK(no_reading(arin_sink_read(words(1, 0x0002D12C, 0, 0, 0, 0, 0)), 11, 1));
    CHECK(no_reading(arin_sink_read(after_5_v(0xE0000000)), 12, 2));
    CHECK(no_reading(arin_sink_read(after_5_v(0xC8DC323C)), 13, 2));

    /* Dual-role power is bit 29, and the current for a fast role swap bits 24 and 23. */
    first = arin_sink_read(words(1, 0x2001912C, 0, 0, 0, 0, 0)).list.places[0];
    CHECK(first.flags == 64 && first.volts == 100 && first.current == 300);
    CHECK(arin_sink_read(words(1, 0x1001912C, 0, 0, 0, 0, 0)).list.places[0].flags == 32);
    CHECK(arin_sink_read(words(1, 0x0801912C, 0, 0, 0, 0, 0)).list.places[0].flags == 16);
    CHECK(arin_sink_read(words(1, 0x0401912C, 0, 0, 0, 0, 0)).list.places[0].flags == 8);
    CHECK(arin_sink_read(words(1, 0x0201912C, 0, 0, 0, 0, 0)).list.places[0].flags == 4);
    CHECK(arin_sink_read(words(1, 0x0181912C, 0, 0, 0, 0, 0)).list.places[0].flags == 3);
}

static void writing(void)
{
    struct arin_flat_objects list = objects_of_six();
    int i;

    CHECK(lists(arin_sink_write(list), list_of_six()));
    /* Peak current, power limited and the fields of other kinds are not read. */
    for (i = 0; i < 6; i++) {
        list.places[i] = amid_ones(list.places[i]);
        CHECK(lists(arin_sink_write(list), list_of_six()));
    }
    /* A source has peak current, and looks at it. */
    CHECK(no_list(arin_write(list), ARIN_FIELD_TOO_WIDE, 1));

    list = objects_of_six();
    list.places[0].flags = 128;
    list.count = 0;
    CHECK(no_list(arin_sink_write(list), ARIN_COUNT, 0));
    list.count = 8;
    CHECK(no_list(arin_sink_write(list), 10, 0));
    list = objects_of_six();
    list.places[1].current = 1024;
    CHECK(no_list(arin_sink_write(list), ARIN_FIELD_TOO_WIDE, 2));
    list.places[0].volts = 101;
    CHECK(no_list(arin_sink_write(list), 7, 2));
    list.places[1].current = 200;
    CHECK(no_list(arin_sink_write(list), ARIN_FIRST_NOT_FIXED_5_V, 1));
    list = objects_of_six();
    list.places[1].flags = 1;
    CHECK(no_list(arin_sink_write(list), ARIN_RESERVED_BIT, 2));
    list = objects_of_six();
    list.count = 7;
    CHECK(no_list(arin_sink_write(list), ARIN_KIND_NOT_ALLOWED, 7));
}

/* AVS is a kind of a source alone: to a sink it is as good as none. */
static void writing_no_kind(void)
{
    const struct arin_flat_object five = fixed(0, 100, 300), nine = fixed(0, 180, 300), fifteen = fixed(0, 300, 300);
    const struct arin_flat_object wide = fixed(200, 180, 300), falling = fixed(0, 66, 300);
    const struct arin_flat_object none = avs(0, 300, 0);
    int kind;

    CHECK(lists(arin_write(starting(3, five, fifteen, none)), words(3, 0x0001912C, 0x0004B12C, 0xE004B000, 0, 0, 0)));
    CHECK(no_list(arin_sink_write(starting(3, five, fifteen, none)), 12, 3));
    CHECK(no_list(arin_sink_write(starting(0, none, none, none)), 10, 0));
    CHECK(no_list(arin_sink_write(starting(8, none, wide, none)), 10, 0));
    CHECK(lists(arin_sink_write(starting(1, five, none, wide)), words(1, 0x0001912C, 0, 0, 0, 0, 0)));
    CHECK(no_list(arin_sink_write(starting(2, none, wide, none)), 7, 2));
    CHECK(no_list(arin_sink_write(starting(3, five, none, wide)), 7, 3));
    CHECK(no_list(arin_sink_write(starting(1, none, none, none)), 11, 1));
    CHECK(no_list(arin_sink_write(starting(2, nine, none, none)), 11, 1));
    CHECK(no_list(arin_sink_write(starting(3, five, falling, none)), ARIN_ORDER, 2));
    CHECK(no_list(arin_sink_write(starting(3, five, none, falling)), 12, 2));

    /* Every number but 0 to 3, and no field that could be too wide. */
    for (kind = 4; kind < 256; kind++) {
        struct arin_flat_object o = amid_ones(no_object((uint8_t)kind));

        CHECK(no_list(arin_sink_write(starting(2, five, o, o)), 12, 2));
        CHECK(no_list(arin_sink_write(starting(1, o, o, o)), 11, 1));
    }
}

static void there_and_back(void)
{
    struct arin_listing l = arin_sink_write(arin_sink_read(list_of_six()).list);

    CHECK(lists(l, list_of_six()));
    CHECK(reads(arin_sink_read(l.list), objects_of_six()));
}

/* ---- The rating ---- */

/* Accepted from this rating on, and refused with 43 below it. */
static int needs(uint16_t rating, struct arin_words list)
{
    return is(arin_sink_check(rating, list), 0, 0) && is(arin_sink_check(200, list), 0, 0) &&
           (rating == 1 || is(arin_sink_check((uint16_t)(rating - 1), list), ARIN_ABOVE_CEILING, 0));
}

static void ratings(void)
{
    const struct arin_words good = list_of_six(), none = words(0, 0, 0, 0, 0, 0, 0);

    /* 1 comes first, then the shape, then 43. */
    CHECK(is(arin_sink_check(0, none), ARIN_PORT_MAXIMUM, 0));
    CHECK(is(arin_sink_check(201, none), 1, 0));
    CHECK(is(arin_sink_check(65535, good), 1, 0));
    CHECK(is(arin_sink_check(256 + 126, good), 1, 0));
    CHECK(is(arin_sink_check(1, none), ARIN_COUNT, 0));
    CHECK(is(arin_sink_check(1, after_5_v(0xE004B000)), ARIN_KIND_NOT_ALLOWED, 2));
    CHECK(is(arin_sink_check(1, after_5_v(0x0042D0C8)), ARIN_RESERVED_BIT, 2));
    CHECK(is(arin_sink_check(1, good), ARIN_ABOVE_CEILING, 0));

    /* 5 V at 3 A is 15 W; 9 V at 2 A is 18 W; 50 W; 21 V at 3 A is 63 W. */
    CHECK(needs(30, words(1, 0x0001912C, 0, 0, 0, 0, 0)));
    CHECK(needs(36, after_5_v(0x0002D0C8)));
    CHECK(needs(100, after_5_v(0x5A4190C8)));
    CHECK(needs(126, after_5_v(0x9A41912C)));
    CHECK(needs(126, good));
    /* 9 V at 2.01 A is a little more than 18 W, so 18.5 W it is. */
    CHECK(needs(37, after_5_v(0x0002D0C9)));
    /* A battery of 50.25 W likewise. */
    CHECK(needs(101, after_5_v(0x5A4190C9)));
}

/* PPS from 5 V on, by its maximum: 9 V for 11 V, 15 V for 16 V, 20 V for 21 V, and else the maximum itself. */
static void ratings_of_pps(void)
{
    CHECK(needs(54, after_5_v(0xC0DC323C)));
    CHECK(needs(72, after_5_v(0xC1403230)));
    CHECK(needs(120, after_5_v(0xC1A4323C)));
    /* To 11.1 V, and from 4.9 V or 5.1 V to 11 V, at 3 A: 66.6 and 66 half watts. */
    CHECK(needs(67, after_5_v(0xC0DE323C)));
    CHECK(needs(66, after_5_v(0xC0DC313C)));
    CHECK(needs(66, after_5_v(0xC0DC333C)));
    /* A voltage of zero sets no ceiling, whatever the current. */
    CHECK(is(arin_sink_check(1, words(2, 0x00019000, 0xC000007F, 0, 0, 0, 0)), 0, 0));
    CHECK(is(arin_sink_check(1, words(2, 0x00019000, 0x800003FF, 0, 0, 0, 0)), 0, 0));
    /* A battery of zero volts has its ceiling all the same: 0.5 W is two steps. */
    CHECK(is(arin_sink_check(1, words(2, 0x00019000, 0x40000002, 0, 0, 0, 0)), 0, 0));
    CHECK(is(arin_sink_check(1, words(2, 0x00019000, 0x40000003, 0, 0, 0, 0)), 43, 0));
}

int main(void)
{
    shapes();
    reserved_bits();
    reading();
    writing();
    writing_no_kind();
    there_and_back();
    ratings();
    ratings_of_pps();
    return told("sinks");
}

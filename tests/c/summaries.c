/*
 * The calls of arinduleu.h on summaries, on good and on refused input. The values are worked out from the statement, "Summaries". The
 * file is C and C++ at once, as calls.c is.
 */
#include "checks.h"

/* ---- Making ---- */

/* L: 5, 9, 15 and 20 V at 3, 3, 3 and 3.25 A; AVS at 3 and 3.25 A. */
static struct arin_words list_l(void)
{
    return words(5, 0x0001912C, 0x0002D12C, 0x0004B12C, 0x00064145, 0xE004B145, 0);
}

/* 36 W: 5, 9 and 15 V at 3, 3 and 2.4 A; AVS to 15 V at 2.4 A; PPS 5 to 11 V at 3 A and 5 to 16 V at 2.4 A. */
static struct arin_words list_36_w(void)
{
    return words(6, 0x0001912C, 0x0002D12C, 0x0004B0F0, 0xE003C000, 0xC8DC323C, 0xC9403230);
}

/* 5 V at 3 A; battery 5 to 21 V at 50 W; variable 5 to 20 V at 1.5 A. */
static struct arin_words list_of_three(void)
{
    return words(3, 0x0A01912C, 0x5A4190C8, 0x99019096, 0, 0, 0);
}

static struct arin_summary no_summary(void)
{
    struct arin_summary s;
    int i, limit;

    s.count = 0;
    for (i = 0; i < ARIN_LIST_PLACES; i++) {
        for (limit = ARIN_LOWEST; limit <= ARIN_ABOVE_15_V; limit++)
            s.rows[i][limit] = 0;
    }
    return s;
}

static void set_row(struct arin_summary *s, int place, uint16_t lowest, uint16_t highest, uint16_t below, uint16_t above)
{
    s->rows[place - 1][ARIN_LOWEST] = lowest;
    s->rows[place - 1][ARIN_HIGHEST] = highest;
    s->rows[place - 1][ARIN_BELOW_15_V] = below;
    s->rows[place - 1][ARIN_ABOVE_15_V] = above;
}

/* So many rows count, and all seven are this one. */
static struct arin_summary all_rows(uint8_t count, uint16_t lowest, uint16_t highest, uint16_t below, uint16_t above)
{
    struct arin_summary s;
    int place;

    s.count = count;
    for (place = 1; place <= ARIN_LIST_PLACES; place++)
        set_row(&s, place, lowest, highest, below, above);
    return s;
}

static struct arin_flat_request no_request(uint8_t kind, uint8_t position, uint8_t mismatch)
{
    struct arin_flat_request r;

    r.kind = kind;
    r.position = position;
    r.mismatch = mismatch;
    r.operating = r.maximum = r.volts20 = r.volts25 = r.current50 = 0;
    return r;
}

/* A request among figures that no call may look at: all that its kind does not have. */
static struct arin_flat_request amid_ones(struct arin_flat_request own)
{
    struct arin_flat_request r = no_request(own.kind, own.position, own.mismatch);

    r.operating = r.maximum = r.volts20 = r.volts25 = r.current50 = 65535;
    switch (own.kind) {
    case ARIN_KIND_FIXED:
    case ARIN_KIND_VARIABLE:
        r.operating = own.operating;
        r.maximum = own.maximum;
        break;
    case ARIN_KIND_PPS:
        r.volts20 = own.volts20;
        r.current50 = own.current50;
        break;
    case ARIN_KIND_AVS:
        r.volts25 = own.volts25;
        r.current50 = own.current50;
        break;
    default:
        break;
    }
    return r;
}

static struct arin_flat_request currents(uint8_t kind, uint16_t operating, uint16_t maximum, uint8_t mismatch)
{
    struct arin_flat_request r = no_request(kind, 1, mismatch);

    r.operating = operating;
    r.maximum = maximum;
    return amid_ones(r);
}

static struct arin_flat_request of_pps(uint16_t volts, uint16_t current)
{
    struct arin_flat_request r = no_request(ARIN_KIND_PPS, 1, 0);

    r.volts20 = volts;
    r.current50 = current;
    return amid_ones(r);
}

static struct arin_flat_request of_avs(uint16_t volts, uint16_t current)
{
    struct arin_flat_request r = no_request(ARIN_KIND_AVS, 1, 0);

    r.volts25 = volts;
    r.current50 = current;
    return amid_ones(r);
}

/* ---- Comparing ---- */

static int is_summary(struct arin_summary s, struct arin_summary w)
{
    int i, limit;

    for (i = 0; i < ARIN_LIST_PLACES; i++) {
        for (limit = ARIN_LOWEST; limit <= ARIN_ABOVE_15_V; limit++) {
            if (s.rows[i][limit] != w.rows[i][limit])
                return 0;
        }
    }
    return s.count == w.count;
}

static int sums_up(struct arin_words list, struct arin_summary wanted)
{
    struct arin_summarized got = arin_summarize(list);

    return is(got.verdict, 0, 0) && is_summary(got.summary, wanted);
}

static int no_sum(struct arin_words list, int number, int place)
{
    struct arin_summarized got = arin_summarize(list);

    return is(got.verdict, number, place) && is(arin_shape(list), number, place) && is_summary(got.summary, no_summary());
}

static int is_request(struct arin_flat_request r, struct arin_flat_request w)
{
    return r.kind == w.kind && r.position == w.position && r.mismatch == w.mismatch && r.operating == w.operating &&
           r.maximum == w.maximum && r.volts20 == w.volts20 && r.volts25 == w.volts25 && r.current50 == w.current50;
}

static int takes(struct arin_words list, uint32_t word, struct arin_flat_request wanted)
{
    struct arin_flat_taken got = arin_take_request(list, word);

    return is(got.verdict, 0, 0) && is_request(got.request, wanted);
}

static int takes_none(struct arin_words list, uint32_t word, int number, int place)
{
    struct arin_flat_taken got = arin_take_request(list, word);

    return is(got.verdict, number, place) && is_request(got.request, no_request(0, 0, 0));
}

/* ---- Summaries ---- */

static void built_lists(void)
{
    struct arin_summary s = no_summary();

    s.count = 5;
    set_row(&s, 1, 5000, 5000, 3000, 3000);
    set_row(&s, 2, 9000, 9000, 3000, 3000);
    set_row(&s, 3, 15000, 15000, 3000, 3000);
    set_row(&s, 4, 20000, 20000, 3250, 3250);
    set_row(&s, 5, 9000, 20000, 3000, 3250);
    CHECK(sums_up(list_l(), s));

    s = no_summary();
    s.count = 6;
    set_row(&s, 1, 5000, 5000, 3000, 3000);
    set_row(&s, 2, 9000, 9000, 3000, 3000);
    set_row(&s, 3, 15000, 15000, 2400, 2400);
    set_row(&s, 4, 9000, 15000, 2400, 0);
    set_row(&s, 5, 5000, 11000, 3000, 3000);
    set_row(&s, 6, 5000, 16000, 2400, 2400);
    CHECK(sums_up(list_36_w(), s));
    s = no_summary();
    s.count = 1;
    set_row(&s, 1, 5000, 5000, 100, 100);
    CHECK(sums_up(arin_build(arin_default_profile(1).profile).list, s));
}

static void each_kind(void)
{
    struct arin_summary s = no_summary();

    s.count = 3;
    set_row(&s, 1, 5000, 5000, 3000, 3000);
    set_row(&s, 2, 5000, 21000, 0, 0);
    set_row(&s, 3, 5000, 20000, 1500, 1500);
    CHECK(sums_up(list_of_three(), s));

    /* The most that bits hold where the shape allows it: 5 V at 10.23 A, and PPS 0 to 21 V at 6.35 A. */
    s = no_summary();
    s.count = 2;
    set_row(&s, 1, 5000, 5000, 10230, 10230);
    set_row(&s, 2, 0, 21000, 6350, 6350);
    CHECK(sums_up(words(2, 0x000193FF, 0xC1A4007F, 0, 0, 0, 0), s));

    /* Variable of 0 V at 10.23 A. */
    s = no_summary();
    s.count = 2;
    set_row(&s, 1, 5000, 5000, 0, 0);
    set_row(&s, 2, 0, 0, 10230, 10230);
    CHECK(sums_up(words(2, 0x00019000, 0x800003FF, 0, 0, 0, 0), s));

    /* AVS of 3 A and then 2 A, whose second current is the smaller. */
    s = no_summary();
    s.count = 4;
    set_row(&s, 1, 5000, 5000, 3000, 3000);
    set_row(&s, 2, 15000, 15000, 3000, 3000);
    set_row(&s, 3, 20000, 20000, 2000, 2000);
    set_row(&s, 4, 9000, 20000, 3000, 2000);
    CHECK(sums_up(words(4, 0x0001912C, 0x0004B12C, 0x000640C8, 0xE004B0C8, 0, 0), s));
}

/* The same numbers and places as arin_shape, and all else zero. */
static void refused_lists(void)
{
    CHECK(no_sum(words(0, 0, 0, 0, 0, 0, 0), ARIN_COUNT, 0));
    CHECK(no_sum(words(8, 0x0001912C, 0, 0, 0, 0, 0), 10, 0));
    CHECK(no_sum(words(255, 0x0001912C, 0, 0, 0, 0, 0), 10, 0));
    CHECK(no_sum(words(1, 0x0002D12C, 0, 0, 0, 0, 0), ARIN_FIRST_NOT_FIXED_5_V, 1));
    CHECK(no_sum(after_5_v(0xD0000000), ARIN_KIND_NOT_ALLOWED, 2));
    CHECK(no_sum(after_5_v(0x0102D12C), ARIN_RESERVED_BIT, 2));
    CHECK(no_sum(words(3, 0x0001912C, 0x0004B12C, 0x0002D12C, 0, 0, 0), ARIN_ORDER, 3));
    CHECK(no_sum(after_5_v(0x00064464), ARIN_VOLTAGE_BOUND, 2));
    CHECK(no_sum(after_5_v(0x000641F5), ARIN_POWER_OVER_100_W, 2));
    CHECK(no_sum(words(3, 0x0001912C, 0x0004B12C, 0xE004AC00, 0, 0, 0), ARIN_AVS_DIFFERS, 3));
}

/* ---- Requests ---- */

static void taking(void)
{
    struct arin_flat_request r;

    r = no_request(ARIN_KIND_FIXED, 4, 0);
    r.operating = 325;
    r.maximum = 325;
    CHECK(takes(list_l(), 0x40051545, r));
    r.mismatch = 1;
    CHECK(takes(list_l(), 0x44051545, r));
    /* Bits that are reserved, 27, 21 and 20, or not examined, 25..22. */
    CHECK(takes(list_l(), 0x4FF51545, r));

    r = no_request(ARIN_KIND_VARIABLE, 3, 1);
    r.operating = 1023;
    r.maximum = 1022;
    CHECK(takes(list_of_three(), 0x340FFFFE, r));

    r = no_request(ARIN_KIND_AVS, 5, 0);
    r.volts25 = 600;
    r.current50 = 65;
    CHECK(takes(list_l(), 0x5004B041, r));
    CHECK(takes(list_l(), 0x5BE4B1C1, r));
    r.volts25 = 4095;
    r.current50 = 127;
    CHECK(takes(list_l(), 0x501FFE7F, r));

    r = no_request(ARIN_KIND_PPS, 6, 0);
    r.volts20 = 250;
    r.current50 = 60;
    CHECK(takes(list_36_w(), 0x6001F43C, r));

    /* Of a battery neither figure comes back. */
    CHECK(takes(list_of_three(), 0x200320C8, no_request(ARIN_KIND_BATTERY, 2, 0)));
    CHECK(takes(list_of_three(), 0x240FFFFF, no_request(ARIN_KIND_BATTERY, 2, 1)));
}

static void taking_refused(void)
{
    uint32_t position;

    CHECK(takes_none(words(0, 0, 0, 0, 0, 0, 0), 0x10000000, ARIN_COUNT, 0));
    CHECK(takes_none(words(8, 0x0001912C, 0, 0, 0, 0, 0), 0x10000000, 10, 0));
    CHECK(takes_none(words(255, 0x0001912C, 0, 0, 0, 0, 0), 0, 10, 0));
    for (position = 0; position < 16; position++) {
        const int named = position >= 1 && position <= 5;

        CHECK(named || takes_none(list_l(), position << 28, ARIN_POSITION, 0));
        CHECK(!named || is(arin_take_request(list_l(), position << 28).verdict, 0, 0));
    }
    /* Words of no kind, the first too, and of no other word is anything said. */
    CHECK(takes_none(words(1, 0xD0000000, 0, 0, 0, 0, 0), 0x10000000, ARIN_KIND_NOT_ALLOWED, 1));
    CHECK(takes_none(after_5_v(0xFFFFFFFF), 0x20000000, 12, 2));
    CHECK(takes(after_5_v(0xFFFFFFFF), 0x10000000, no_request(ARIN_KIND_FIXED, 1, 0)));
    CHECK(takes(words(2, 0xFFFFFFFF, 0x5A4190C8, 0, 0, 0, 0), 0x20000000, no_request(ARIN_KIND_BATTERY, 2, 0)));
}

/* ---- Answers ---- */

/* As the header says it. */
static struct arin_verdict quick(struct arin_words list, struct arin_summary summary, uint32_t word)
{
    struct arin_flat_taken t = arin_take_request(list, word);
    struct arin_verdict v = t.verdict;

    if (v.number == ARIN_SUCCESS && t.request.kind == ARIN_KIND_BATTERY)
        v = arin_answer(list, word);
    else if (v.number == ARIN_SUCCESS)
        v = arin_answer_summary(summary, t.request);
    return v;
}

static int agrees(struct arin_words list, struct arin_summary summary, uint32_t word)
{
    struct arin_verdict from_list = arin_answer(list, word);

    return is(quick(list, summary, word), from_list.number, from_list.place);
}

/* Every voltage with every current at a position. One check for each voltage, so that the count says what was gone through. */
static void every_voltage_and_current(struct arin_words list, uint32_t position)
{
    const struct arin_summary summary = arin_summarize(list).summary;
    uint32_t volts, current;

    for (volts = 0; volts < 4096; volts++) {
        int same = 1;

        for (current = 0; current < 128; current++)
            same = same && agrees(list, summary, position << 28 | volts << 9 | current);
        CHECK(same);
    }
}

/* Both figures of a position around their limit, and at the ends of their bits, with and without the mismatch bit. */
static void figures_around(struct arin_words list, uint32_t position, uint32_t limit)
{
    const struct arin_summary summary = arin_summarize(list).summary;
    const uint32_t figures[] = { 0, 1, limit - 1, limit, limit + 1, 1022, 1023 };
    int i, j;

    for (i = 0; i < 7; i++) {
        for (j = 0; j < 7; j++) {
            const uint32_t word = position << 28 | figures[i] << 10 | figures[j];

            CHECK(agrees(list, summary, word));
            CHECK(agrees(list, summary, word | (uint32_t)1 << 26));
            CHECK(agrees(list, summary, word | 0x0BF00000));
        }
    }
}

static void answers_of_lists(void)
{
    uint32_t position;

    every_voltage_and_current(list_l(), 5);
    every_voltage_and_current(list_36_w(), 4);
    every_voltage_and_current(list_36_w(), 6);
    figures_around(list_l(), 1, 300);
    figures_around(list_l(), 4, 325);
    figures_around(list_of_three(), 1, 300);
    figures_around(list_of_three(), 2, 200);
    figures_around(list_of_three(), 3, 150);
    for (position = 0; position < 16; position++) {
        CHECK(agrees(list_l(), arin_summarize(list_l()).summary, position << 28));
        CHECK(agrees(list_36_w(), arin_summarize(list_36_w()).summary, position << 28));
    }
    /* By hand: AVS at 15.0 V and 3.25 A, and a step more. */
    CHECK(is(quick(list_l(), arin_summarize(list_l()).summary, 0x5004B041), ARIN_SUCCESS, 0));
    CHECK(is(quick(list_l(), arin_summarize(list_l()).summary, 0x5004B042), ARIN_OPERATING_TOO_LARGE, 0));
}

/* Two currents that differ, either way round; every kind goes by the row as it stands. */
static void rows_as_they_stand(void)
{
    const struct arin_summary falling = all_rows(7, 9000, 20000, 3000, 2000), rising = all_rows(7, 9000, 20000, 2000, 3000);

    CHECK(is(arin_answer_summary(falling, of_avs(596, 60)), 0, 0));
    CHECK(is(arin_answer_summary(falling, of_avs(596, 61)), ARIN_OPERATING_TOO_LARGE, 0));
    CHECK(is(arin_answer_summary(falling, of_avs(600, 60)), 0, 0));
    CHECK(is(arin_answer_summary(falling, of_avs(600, 61)), 24, 0));
    CHECK(is(arin_answer_summary(falling, of_avs(604, 40)), 0, 0));
    CHECK(is(arin_answer_summary(falling, of_avs(604, 41)), 24, 0));
    CHECK(is(arin_answer_summary(rising, of_avs(596, 41)), 24, 0));
    CHECK(is(arin_answer_summary(rising, of_avs(600, 60)), 0, 0));
    CHECK(is(arin_answer_summary(rising, of_avs(604, 60)), 0, 0));
    /* 14.98, 15.00 and 15.02 V. */
    CHECK(is(arin_answer_summary(rising, of_pps(749, 41)), 24, 0));
    CHECK(is(arin_answer_summary(rising, of_pps(750, 60)), 0, 0));
    CHECK(is(arin_answer_summary(falling, of_pps(751, 41)), 24, 0));
    CHECK(is(arin_answer_summary(rising, currents(ARIN_KIND_FIXED, 200, 200, 0)), 0, 0));
    CHECK(is(arin_answer_summary(rising, currents(ARIN_KIND_FIXED, 201, 0, 0)), 24, 0));
    CHECK(is(arin_answer_summary(falling, currents(ARIN_KIND_VARIABLE, 300, 300, 0)), 0, 0));
    CHECK(is(arin_answer_summary(falling, currents(ARIN_KIND_VARIABLE, 301, 0, 0)), 24, 0));
    /* The order: 23, 22, 24. */
    CHECK(is(arin_answer_summary(falling, of_avs(1, 65535)), ARIN_AVS_VOLTAGE_NOT_WHOLE, 0));
    CHECK(is(arin_answer_summary(falling, of_avs(0, 65535)), ARIN_VOLTAGE_OUTSIDE, 0));
    CHECK(is(arin_answer_summary(falling, of_pps(449, 0)), 22, 0));
    CHECK(is(arin_answer_summary(falling, of_pps(450, 0)), 0, 0));
    CHECK(is(arin_answer_summary(falling, of_pps(1000, 0)), 0, 0));
    CHECK(is(arin_answer_summary(falling, of_pps(1001, 0)), 22, 0));
}

/* Limits at both ends of 16 bits: 65.5 V is 2620 steps of 25 mV, and 65.5 A 1310 steps of 50 mA. A step more does not fit. */
static void limits_at_the_ends(void)
{
    const struct arin_summary all = all_rows(7, 0, 65535, 65535, 65535), nothing = all_rows(7, 0, 0, 0, 0);
    const struct arin_summary upside_down = all_rows(7, 65535, 0, 65535, 65535);

    CHECK(is(arin_answer_summary(all, of_avs(2620, 1310)), 0, 0));
    CHECK(is(arin_answer_summary(all, of_avs(2624, 0)), 22, 0));
    CHECK(is(arin_answer_summary(all, of_avs(65532, 0)), 22, 0));
    CHECK(is(arin_answer_summary(all, of_avs(0, 1311)), 24, 0));
    CHECK(is(arin_answer_summary(all, of_pps(3276, 1310)), 0, 0));
    CHECK(is(arin_answer_summary(all, of_pps(3277, 0)), 22, 0));
    CHECK(is(arin_answer_summary(all, of_pps(65535, 65535)), 22, 0));
    CHECK(is(arin_answer_summary(all, currents(ARIN_KIND_FIXED, 6553, 6553, 0)), 0, 0));
    CHECK(is(arin_answer_summary(all, currents(ARIN_KIND_FIXED, 6554, 6554, 0)), 24, 0));
    CHECK(is(arin_answer_summary(all, currents(ARIN_KIND_VARIABLE, 0, 65535, 0)), ARIN_MAXIMUM_TOO_LARGE, 0));
    CHECK(is(arin_answer_summary(nothing, of_avs(0, 0)), 0, 0));
    CHECK(is(arin_answer_summary(nothing, of_avs(0, 1)), 24, 0));
    CHECK(is(arin_answer_summary(nothing, of_avs(4, 0)), 22, 0));
    CHECK(is(arin_answer_summary(nothing, of_pps(1, 0)), 22, 0));
    CHECK(is(arin_answer_summary(nothing, currents(ARIN_KIND_FIXED, 0, 0, 0)), 0, 0));
    CHECK(is(arin_answer_summary(nothing, currents(ARIN_KIND_FIXED, 0, 1, 0)), 25, 0));
    CHECK(is(arin_answer_summary(upside_down, of_pps(100, 0)), 22, 0));
}

/* Every number but 0 is a mismatch that is set. */
static void mismatches(void)
{
    const struct arin_summary s = all_rows(1, 0, 65535, 3000, 3000);
    const uint8_t kinds[] = { ARIN_KIND_FIXED, ARIN_KIND_VARIABLE };
    int i, mismatch;

    for (i = 0; i < 2; i++) {
        for (mismatch = 0; mismatch < 256; mismatch++) {
            const int more = mismatch == 0 ? ARIN_MAXIMUM_TOO_LARGE : ARIN_SUCCESS;

            CHECK(is(arin_answer_summary(s, currents(kinds[i], 300, 301, (uint8_t)mismatch)), more, 0));
            CHECK(is(arin_answer_summary(s, currents(kinds[i], 300, 300, (uint8_t)mismatch)), 0, 0));
            CHECK(is(arin_answer_summary(s, currents(kinds[i], 301, 301, (uint8_t)mismatch)), 24, 0));
        }
    }
}

/* A kind that has no answer comes first, then the count, then the position. */
static void kinds_counts_and_positions(void)
{
    int kind, count, position;

    for (kind = 0; kind < 256; kind++) {
        const int known = kind == ARIN_KIND_FIXED || kind == ARIN_KIND_VARIABLE || kind == ARIN_KIND_PPS || kind == ARIN_KIND_AVS;

        const struct arin_flat_request r = no_request((uint8_t)kind, 1, 0);

        CHECK(is(arin_answer_summary(all_rows(7, 0, 65535, 0, 0), r), known ? ARIN_SUCCESS : ARIN_KIND_NOT_ALLOWED, 0));
        CHECK(is(arin_answer_summary(all_rows(8, 0, 65535, 0, 0), r), known ? ARIN_COUNT : 12, 0));
        CHECK(is(arin_answer_summary(no_summary(), r), known ? ARIN_POSITION : 12, 0));
    }
    for (count = 0; count < 256; count++) {
        for (position = 0; position < 256; position++) {
            const int within = position >= 1 && position <= count;
            const int wanted = count > 7 ? ARIN_COUNT : within ? ARIN_SUCCESS : ARIN_POSITION;

            const struct arin_flat_request r = no_request(ARIN_KIND_FIXED, (uint8_t)position, 0);

            CHECK(is(arin_answer_summary(all_rows((uint8_t)count, 0, 0, 0, 0), r), wanted, 0));
        }
    }
    /* What a refused list and a refused word leave behind is refused too, should somebody go on with it. */
    CHECK(is(arin_answer_summary(arin_summarize(words(0, 0, 0, 0, 0, 0, 0)).summary, of_avs(600, 0)), 20, 0));
    CHECK(is(arin_answer_summary(arin_summarize(list_l()).summary, arin_take_request(list_l(), 0x60000000).request), 20, 0));
}

int main(void)
{
    built_lists();
    each_kind();
    refused_lists();
    taking();
    taking_refused();
    answers_of_lists();
    rows_as_they_stand();
    limits_at_the_ends();
    mismatches();
    kinds_counts_and_positions();
    return told("summaries");
}

/*
 * Each call of arinduleu.h on good and on refused input, and its macros; summaries.c has those on summaries and sinks.c those on sink
 * lists. The values are those of the statement's hand-worked cases, or worked out from it. The file is C and C++ at once, so that the
 * header's extern "C" is linked with too.
 */
#include "objects.h"

/* ---- Making ---- */

static struct arin_profile profile(uint16_t max, uint16_t present, uint16_t cable, uint8_t rounding, uint8_t pps, uint8_t flags)
{
    struct arin_profile p;

    p.max = max;
    p.present = present;
    p.cable = cable;
    p.rounding = rounding;
    p.pps = pps;
    p.flags = flags;
    return p;
}

static struct arin_words list_36_w(void)
{
    return words(6, 0x0001912C, 0x0002D12C, 0x0004B0F0, 0xE003C000, 0xC8DC323C, 0xC9403230);
}

/* L: 300, 300, 300, 325; AVS 300 and 325. */
static struct arin_words list_l(void)
{
    return words(5, 0x0001912C, 0x0002D12C, 0x0004B12C, 0x00064145, 0xE004B145, 0);
}

/* The objects of list_36_w. The place past the count is of no kind: a call that read it would refuse. */
static struct arin_flat_objects objects_36_w(void)
{
    struct arin_flat_objects list;

    list.places[0] = fixed(0, 100, 300);
    list.places[1] = fixed(0, 180, 300);
    list.places[2] = fixed(0, 300, 240);
    list.places[3] = avs(0, 240, 0);
    list.places[4] = pps(1, 110, 50, 60);
    list.places[5] = pps(1, 160, 50, 48);
    list.places[6] = no_object(9);
    list.count = 6;
    return list;
}

/* 5 V at 3 A, a battery supply of 5 to 20 V and 100 W, a variable one of 5 to 21 V at 2 A. */
static struct arin_flat_objects objects_of_three(void)
{
    struct arin_flat_objects list = objects_36_w();

    list.places[0] = fixed(0x41, 100, 300);
    list.places[1] = battery(400, 100, 400);
    list.places[2] = variable(420, 100, 200);
    list.count = 3;
    return list;
}

static struct arin_words list_of_three(void)
{
    return words(3, 0x2081912C, 0x59019190, 0x9A4190C8, 0, 0, 0);
}

/* A message that is not extended. */
static struct arin_message message(uint8_t id, uint8_t power_role, uint8_t revision, uint8_t data_role, uint8_t message_type,
                                   struct arin_words list)
{
    struct arin_message m;
    int i;

    m.header.extended = 0;
    m.header.count = list.count;
    m.header.id = id;
    m.header.power_role = power_role;
    m.header.revision = revision;
    m.header.data_role = data_role;
    m.header.message_type = message_type;
    for (i = 0; i < ARIN_LIST_PLACES; i++)
        m.words[i] = list.words[i];
    return m;
}

/* As in the statement's hand-worked cases: what a source sends first, and the Request of a sink. */
static struct arin_message capabilities(struct arin_words list)
{
    return message(0, 1, 2, 1, ARIN_SOURCE_CAPABILITIES, list);
}

static struct arin_message a_request(uint32_t word)
{
    return message(1, 0, 2, 0, ARIN_REQUEST, words(1, word, 0, 0, 0, 0, 0));
}

/* Bytes, and how many of them are lent. There is room for more than a message, so that it shows where too many are written. */
enum { ROOM = 40 };

struct buffer {
    uint8_t bytes[ROOM];
    size_t length;
};

static struct buffer untouched(size_t length)
{
    struct buffer b;
    int i;

    for (i = 0; i < ROOM; i++)
        b.bytes[i] = 0xAA;
    b.length = length;
    return b;
}

/* The bytes of a message whose fields fit, by hand. */
static struct buffer laid(struct arin_message m)
{
    const struct arin_header h = m.header;
    const unsigned half = (unsigned)h.extended << 15 | (unsigned)h.count << 12 | (unsigned)h.id << 9 |
                          (unsigned)h.power_role << 8 | (unsigned)h.revision << 6 | (unsigned)h.data_role << 5 | h.message_type;
    struct buffer b = untouched(0);
    int i, shift;

    b.bytes[b.length++] = (uint8_t)(half & 0xFF);
    b.bytes[b.length++] = (uint8_t)(half >> 8);
    for (i = 0; i < h.count; i++) {
        for (shift = 0; shift < 32; shift += 8)
            b.bytes[b.length++] = (uint8_t)(m.words[i] >> shift & 0xFF);
    }
    return b;
}

static struct arin_row row(uint16_t max, uint8_t pps_wanted, uint16_t cable, uint16_t present, uint16_t held)
{
    struct arin_row r;

    r.max = max;
    r.pps = pps_wanted;
    r.cable = cable;
    r.present = present;
    r.held = held;
    return r;
}

/* Fixed supplies: position, and the current in 10 mA as both figures. */
static uint32_t ask(uint32_t position, uint32_t current)
{
    return (position << 28) | (current << 10) | current;
}

/* AVS and PPS: the voltage in the step of the kind, the current in 50 mA. */
static uint32_t ask_volts(uint32_t position, uint32_t volts, uint32_t current)
{
    return (position << 28) | (volts << 9) | current;
}

/* ---- Comparing ---- */

static int is_profile(struct arin_profile p, struct arin_profile wanted)
{
    return p.max == wanted.max && p.present == wanted.present && p.cable == wanted.cable && p.rounding == wanted.rounding &&
           p.pps == wanted.pps && p.flags == wanted.flags;
}

static int is_header(struct arin_header h, struct arin_header wanted)
{
    return h.extended == wanted.extended && h.count == wanted.count && h.id == wanted.id && h.power_role == wanted.power_role &&
           h.revision == wanted.revision && h.data_role == wanted.data_role && h.message_type == wanted.message_type;
}

/* Success, the header, the words that count, and zero past them. */
static int is_message(struct arin_message_reading got, struct arin_message wanted)
{
    int i;

    if (!is(got.verdict, 0, 0) || !is_header(got.message.header, wanted.header))
        return 0;
    for (i = 0; i < ARIN_LIST_PLACES; i++) {
        if (got.message.words[i] != (i < wanted.header.count ? wanted.words[i] : 0))
            return 0;
    }
    return 1;
}

static int no_message(struct arin_message_reading got, int number, int place)
{
    static const struct arin_header zero = { 0, 0, 0, 0, 0, 0, 0 };
    int i;

    for (i = 0; i < ARIN_LIST_PLACES; i++) {
        if (got.message.words[i] != 0)
            return 0;
    }
    return is(got.verdict, number, place) && is_header(got.message.header, zero);
}

/* Byte by byte, those that are not lent too. */
static int is_buffer(struct buffer b, struct buffer wanted)
{
    int i;

    for (i = 0; i < ROOM; i++) {
        if (b.bytes[i] != wanted.bytes[i])
            return 0;
    }
    return 1;
}

static int is_power(struct arin_remaining_power p, int number, int place, int power)
{
    return is(p.verdict, number, place) && p.power == power;
}

static int is_row(struct arin_row r, struct arin_row wanted)
{
    return r.max == wanted.max && r.pps == wanted.pps && r.cable == wanted.cable && r.present == wanted.present &&
           r.held == wanted.held;
}

/* ---- Numbers, texts, macros ---- */

static int same(const char *a, const char *b)
{
    while (*a != 0 && *a == *b) {
        a++;
        b++;
    }
    return *a == *b;
}

/* The table as it is written, beside what the function makes of it. */
struct refusal {
    unsigned number;
    unsigned named;
    const char *sentence;
};

#define ARIN_REFUSAL(number, name, sentence) { number, ARIN_##name, sentence },
static const struct refusal refusals[] = {
#include "arinduleu_refusals.inc"
};
#undef ARIN_REFUSAL

/* Whether the statement has such a refusal. */
static int is_refusal(unsigned number)
{
    return (number <= 25 && number != 8 && number != 21) || (number >= 30 && number <= 37) || (number >= 40 && number <= 43) ||
           (number >= 51 && number <= 53);
}

static void texts(void)
{
    const unsigned rows = sizeof refusals / sizeof refusals[0];
    const char *none = arin_refusal_text(8);
    unsigned i, j;

    CHECK(rows == 39);
    for (i = 0; i < rows; i++) {
        CHECK(refusals[i].number == refusals[i].named);
        CHECK(is_refusal(refusals[i].number));
        CHECK(same(arin_refusal_text(refusals[i].number), refusals[i].sentence));
        CHECK(!same(refusals[i].sentence, none) && !same(refusals[i].sentence, ""));
        for (j = 0; j < i; j++)
            CHECK(refusals[j].number != refusals[i].number && !same(refusals[j].sentence, refusals[i].sentence));
    }
    for (i = 0; i < 600; i++)
        CHECK(is_refusal(i) == !same(arin_refusal_text(i), none));
    CHECK(same(arin_refusal_text(0xFFFFFFFFu), none));
    CHECK(same(none, "there is no refusal of this number"));
    CHECK(same(arin_refusal_text(ARIN_NO_POWER_NOW), "the other ports hold the power that this request needs"));
}

#if ARIN_WATTS(65) != 130 || ARIN_WATTS_AND_A_HALF(7) != 15
#error the watts are no constants for the preprocessor
#endif

enum { A_CONSTANT_OF_WATTS = ARIN_WATTS(100) };

static const struct arin_row by_watts[] = { { ARIN_WATTS(60 + 5), 0, 0, 0, ARIN_WATTS_AND_A_HALF(3 + 4) } };

static void watts(void)
{
    const uint16_t half_watts[] = { 0, 1, 15, 65535 };

    CHECK(A_CONSTANT_OF_WATTS == 200);
    CHECK(by_watts[0].max == 130 && by_watts[0].held == 15);
    CHECK(ARIN_WATTS(0) == 0 && ARIN_WATTS_AND_A_HALF(0) == 1);
    CHECK(ARIN_WHOLE_WATTS(half_watts[0]) == 0 && ARIN_TENTHS_OF_A_WATT(half_watts[0]) == 0);
    CHECK(ARIN_WHOLE_WATTS(half_watts[1]) == 0 && ARIN_TENTHS_OF_A_WATT(half_watts[1]) == 5);
    CHECK(ARIN_WHOLE_WATTS(half_watts[2]) == 7 && ARIN_TENTHS_OF_A_WATT(half_watts[2]) == 5);
    CHECK(ARIN_WHOLE_WATTS(half_watts[3]) == 32767 && ARIN_TENTHS_OF_A_WATT(half_watts[3]) == 5);
    CHECK(ARIN_WHOLE_WATTS(ARIN_WATTS(65)) == 65 && ARIN_TENTHS_OF_A_WATT(ARIN_WATTS(65)) == 0);
}

#if ARIN_AMPERES(5) != 500 || ARIN_AMPERES_AND_TENTHS(2, 5) != 250
#error the amperes are no constants for the preprocessor
#endif

enum { A_CONSTANT_OF_AMPERES = ARIN_AMPERES(3) };

static const struct arin_row by_amperes[] = { { 130, 0, ARIN_AMPERES(1 + 1), 130, 15 },
                                              { 130, 0, ARIN_AMPERES_AND_TENTHS(1 + 1, 4 + 1), 130, 15 } };

static void amperes(void)
{
    CHECK(A_CONSTANT_OF_AMPERES == 300);
    CHECK(by_amperes[0].cable == 200 && by_amperes[1].cable == 250);
    CHECK(ARIN_AMPERES_AND_TENTHS(1, 0) == ARIN_AMPERES(1) && ARIN_AMPERES_AND_TENTHS(0, 9) == 90);
    CHECK(is(arin_remaining(by_amperes, 2, 200).verdict, 0, 0));
}

#define TEXT(words) #words
#define TEXT_OF(macro) TEXT(macro)

static void version(void)
{
    CHECK(same(ARIN_VERSION,
               TEXT_OF(ARIN_VERSION_MAJOR) "." TEXT_OF(ARIN_VERSION_MINOR) "." TEXT_OF(ARIN_VERSION_PATCH)));
}

/* ---- Lists and requests ---- */

static void default_profiles(void)
{
    struct arin_profile none = profile(0, 0, 0, 0, 0, 0);
    struct arin_profiled p = arin_default_profile(72);

    CHECK(is(p.verdict, ARIN_SUCCESS, 0) && is_profile(p.profile, profile(72, 72, 300, 0, 0, 0)));
    p = arin_default_profile(1);
    CHECK(is(p.verdict, 0, 0) && is_profile(p.profile, profile(1, 1, 300, 0, 0, 0)));
    p = arin_default_profile(200);
    CHECK(is(p.verdict, 0, 0) && is_profile(p.profile, profile(200, 200, 300, 0, 0, 0)));
    p = arin_default_profile(0);
    CHECK(is(p.verdict, ARIN_PORT_MAXIMUM, 0) && is_profile(p.profile, none));
    p = arin_default_profile(201);
    CHECK(is(p.verdict, 1, 0) && is_profile(p.profile, none));
    p = arin_default_profile(65535);
    CHECK(is(p.verdict, 1, 0) && is_profile(p.profile, none));
}

static struct arin_listing by_max(uint16_t max)
{
    return arin_build(arin_default_profile(max).profile);
}

static void builds(void)
{
    CHECK(lists(arin_build(profile(72, 72, 300, 0, 1, 0)), list_36_w()));
    CHECK(lists(arin_build(profile(160, 130, 500, 0, 0, 0)), list_l()));
    CHECK(lists(arin_build(profile(160, 80, 500, 1, 0, 0)),
                words(5, 0x0001912C, 0x0002D12C, 0x0004B10B, 0x000640C8, 0xE0042CC8, 0)));
    CHECK(lists(arin_build(profile(30, 30, 300, 0, 0, 63)), words(1, 0x3F01912C, 0, 0, 0, 0, 0)));
    CHECK(lists(by_max(30), words(1, 0x0001912C, 0, 0, 0, 0, 0)));
    CHECK(lists(by_max(31), words(2, 0x0001912C, 0x0002D0AC, 0, 0, 0, 0)));
    CHECK(lists(by_max(54), words(2, 0x0001912C, 0x0002D12C, 0, 0, 0, 0)));
    CHECK(lists(by_max(55), words(4, 0x0001912C, 0x0002D12C, 0x0004B0B7, 0xE002DC00, 0, 0)));
    CHECK(lists(by_max(80), words(4, 0x0001912C, 0x0002D12C, 0x0004B10A, 0xE0042800, 0, 0)));
    CHECK(lists(by_max(90), words(4, 0x0001912C, 0x0002D12C, 0x0004B12C, 0xE004B000, 0, 0)));
    CHECK(lists(by_max(91), words(5, 0x0001912C, 0x0002D12C, 0x0004B12C, 0x000640E3, 0xE004B0E3, 0)));
}

/* Each profile has all the faults that come later, so the order shows too. */
static void builds_none(void)
{
    CHECK(no_list(arin_build(profile(0, 1, 99, 2, 2, 64)), ARIN_PORT_MAXIMUM, 0));
    CHECK(no_list(arin_build(profile(201, 202, 99, 2, 2, 64)), 1, 0));
    CHECK(no_list(arin_build(profile(72, 73, 99, 2, 2, 64)), ARIN_PRESENT_POWER, 0));
    CHECK(no_list(arin_build(profile(72, 0, 99, 2, 2, 64)), 2, 0));
    CHECK(no_list(arin_build(profile(72, 71, 99, 2, 2, 64)), ARIN_CABLE, 0));
    CHECK(no_list(arin_build(profile(72, 71, 500, 2, 1, 64)), ARIN_NOT_A_CHOICE, 0));
    CHECK(no_list(arin_build(profile(72, 71, 500, 1, 2, 64)), 4, 0));
    CHECK(no_list(arin_build(profile(72, 71, 500, 1, 1, 64)), ARIN_FLAGS, 0));
    CHECK(no_list(arin_build(profile(72, 71, 500, 1, 1, 63)), ARIN_PPS_BELOW_MAXIMUM, 0));
}

static void checks(void)
{
    struct arin_profile p = profile(160, 130, 500, 0, 0, 0);
    struct arin_words low = words(5, 0x0001912C, 0x0002D12C, 0x0004B12C, 0x00064144, 0xE004B144, 0);

    CHECK(is(arin_check(p, list_l()), 0, 0));
    CHECK(is(arin_check(profile(72, 72, 300, 0, 0, 0), list_36_w()), 0, 0));
    /* 6 is the builder's alone. */
    CHECK(is(arin_check(profile(160, 130, 500, 0, 1, 0), list_l()), 0, 0));
    CHECK(is(arin_check(profile(0, 1, 99, 2, 2, 64), words(0, 0, 0, 0, 0, 0, 0)), 1, 0));
    CHECK(is(arin_check(profile(72, 73, 99, 2, 2, 64), list_36_w()), 2, 0));
    CHECK(is(arin_check(profile(72, 72, 99, 2, 2, 64), list_36_w()), 3, 0));
    CHECK(is(arin_check(profile(72, 72, 300, 2, 2, 64), list_36_w()), 4, 0));
    CHECK(is(arin_check(profile(72, 72, 300, 0, 0, 64), list_36_w()), 5, 0));
    CHECK(is(arin_check(p, words(0, 0, 0, 0, 0, 0, 0)), ARIN_COUNT, 0));
    CHECK(is(arin_check(p, words(2, 0x0001912C, 0x0001912C, 0, 0, 0, 0)), ARIN_ORDER, 2));
    CHECK(is(arin_check(p, list_36_w()), ARIN_WRONG_SET, 0));
    CHECK(is(arin_check(profile(72, 71, 300, 0, 0, 0), list_36_w()), 18, 0));
    CHECK(is(arin_check(p, low), ARIN_CURRENT_NOT_ALLOWED, 4));
}

/* What is no cable: amperes, one step past each end, and figures that would be a cable, or none, in 8 bits. */
static const uint16_t no_cables[] = { 0, 1, 3, 5, 99, 501, 512, 512 + 200, 65535 };

enum { NO_CABLES = sizeof no_cables / sizeof no_cables[0] };

static void cables_refused(void)
{
    int i;

    for (i = 0; i < NO_CABLES; i++) {
        struct arin_row r[2];

        CHECK(no_list(arin_build(profile(72, 72, no_cables[i], 0, 1, 0)), ARIN_CABLE, 0));
        CHECK(no_list(arin_build(profile(72, 72, no_cables[i], 2, 2, 64)), 3, 0));
        CHECK(is(arin_check(profile(72, 72, no_cables[i], 0, 1, 0), list_36_w()), 3, 0));
        CHECK(is(arin_check(profile(72, 72, no_cables[i], 2, 2, 64), words(0, 0, 0, 0, 0, 0, 0)), 3, 0));
        r[0] = row(130, 0, 500, 130, 15);
        r[1] = row(130, 0, 0, 0, 15);
        CHECK(no_list(arin_attach(r, 2, 200, 2, no_cables[i]), 3, 0));
        /* 3 comes before 34. */
        CHECK(no_list(arin_attach(r, 2, 200, 1, no_cables[i]), 3, 0));
        CHECK(is_row(r[0], row(130, 0, 500, 130, 15)) && is_row(r[1], row(130, 0, 0, 0, 15)));
    }
}

/* Every cable that there is: 100 W with PPS, whose 5, 9 and 15 V have 3 A and whose 20 V has 5 A where the cable carries it. */
static void cables_built(void)
{
    uint16_t cable;

    for (cable = 100; cable <= 500; cable++) {
        const struct arin_profile p = profile(200, 200, cable, 0, 1, 0);
        const uint32_t low = cable < 300 ? cable : 300, high = cable;
        const struct arin_words wanted = words(6, 0x00019000 | low, 0x0002D000 | low, 0x0004B000 | low, 0x00064000 | high,
                                               0xE0000000 | low << 10 | high, 0xC9A43200 | high / 5);
        struct arin_row r[1];

        CHECK(lists(arin_build(p), wanted) && is(arin_check(p, wanted), 0, 0));
        r[0] = row(200, 1, 0, 0, 15);
        CHECK(lists(arin_attach(r, 1, 200, 1, cable), wanted) && is_row(r[0], row(200, 1, cable, 200, 15)));
    }
}

/* A list of 100 W without PPS, with these currents. */
static struct arin_words with_currents(uint32_t at_5_v, uint32_t at_9_v, uint32_t at_15_v, uint32_t at_20_v)
{
    return words(5, 0x00019000 | at_5_v, 0x0002D000 | at_9_v, 0x0004B000 | at_15_v, 0x00064000 | at_20_v,
                 0xE0000000 | at_15_v << 10 | at_20_v, 0);
}

/* A captive lead of 2 A, and one of 4 A: each end of what is allowed, and one step past it. */
static void leads(void)
{
    const struct arin_profile two = profile(200, 200, ARIN_AMPERES(2), 0, 0, 0), four = profile(200, 200, ARIN_AMPERES(4), 0, 0, 0);
    /* 20 W left of 100: 5 V at 4.00 A, 9 V between 2.22 and 2.23 A, 15 V between 1.33 and 1.34 A, 20 V at 1 A, before any cut. */
    const struct arin_profile less = profile(200, 40, ARIN_AMPERES(2), 1, 0, 0);

    CHECK(lists(arin_build(two), with_currents(200, 200, 200, 200)));
    CHECK(is(arin_check(two, with_currents(200, 200, 200, 200)), 0, 0));
    CHECK(is(arin_check(two, with_currents(199, 200, 200, 200)), ARIN_CURRENT_NOT_ALLOWED, 1));
    CHECK(is(arin_check(two, with_currents(201, 200, 200, 200)), 19, 1));
    CHECK(is(arin_check(two, with_currents(300, 300, 300, 300)), 19, 1));
    CHECK(is(arin_check(two, with_currents(200, 199, 200, 200)), 19, 2));
    CHECK(is(arin_check(two, with_currents(200, 201, 200, 200)), 19, 2));
    CHECK(is(arin_check(two, with_currents(200, 200, 199, 200)), 19, 3));
    CHECK(is(arin_check(two, with_currents(200, 200, 201, 200)), 19, 3));
    CHECK(is(arin_check(two, with_currents(200, 200, 200, 199)), 19, 4));
    CHECK(is(arin_check(two, with_currents(200, 200, 200, 201)), 19, 4));

    CHECK(lists(arin_build(less), with_currents(200, 200, 134, 100)));
    CHECK(is(arin_check(less, with_currents(200, 200, 133, 100)), 0, 0));
    CHECK(is(arin_check(less, with_currents(200, 222, 134, 100)), 19, 2));
    CHECK(is(arin_check(less, with_currents(200, 223, 134, 100)), 19, 2));
    CHECK(is(arin_check(less, with_currents(200, 200, 132, 100)), 19, 3));
    CHECK(is(arin_check(less, with_currents(200, 200, 135, 100)), 19, 3));

    CHECK(lists(arin_build(four), with_currents(300, 300, 300, 400)));
    CHECK(is(arin_check(four, with_currents(300, 300, 300, 400)), 0, 0));
    CHECK(is(arin_check(four, with_currents(400, 400, 400, 400)), 0, 0));
    CHECK(is(arin_check(four, with_currents(299, 300, 300, 400)), 19, 1));
    CHECK(is(arin_check(four, with_currents(401, 300, 300, 400)), 19, 1));
    CHECK(is(arin_check(four, with_currents(300, 299, 300, 400)), 19, 2));
    CHECK(is(arin_check(four, with_currents(300, 401, 300, 400)), 19, 2));
    CHECK(is(arin_check(four, with_currents(300, 300, 299, 400)), 19, 3));
    CHECK(is(arin_check(four, with_currents(300, 300, 401, 400)), 19, 3));
    CHECK(is(arin_check(four, with_currents(300, 300, 300, 399)), 19, 4));
    CHECK(is(arin_check(four, with_currents(300, 300, 300, 401)), 19, 4));
}

/* The list of 40 W with PPS on this cable: its 15 V is at most 2.66 A, and its Progs, in 50 mA, at most 60 and 53. */
static struct arin_words list_40_w(uint32_t low, uint32_t at_15_v, uint32_t prog_9_v, uint32_t prog_15_v)
{
    return words(6, 0x00019000 | low, 0x0002D000 | low, 0x0004B000 | at_15_v, 0xE0000000 | at_15_v << 10, 0xC8DC3200 | prog_9_v,
                 0xC9403200 | prog_15_v);
}

/* 9 V Prog of 40 W may go up to 4.40 A, and no further than the cable in whole 50 mA. */
static void leads_with_pps(void)
{
    const struct arin_profile two = profile(80, 80, 200, 0, 1, 0), a_little_more = profile(80, 80, 204, 0, 1, 0);
    const struct arin_profile four = profile(80, 80, 400, 0, 1, 0), not_quite_four = profile(80, 80, 399, 0, 1, 0);

    CHECK(lists(arin_build(two), list_40_w(200, 200, 40, 40)));
    CHECK(is(arin_check(two, list_40_w(200, 200, 39, 40)), 19, 5));
    CHECK(is(arin_check(two, list_40_w(200, 200, 41, 40)), 19, 5));
    CHECK(is(arin_check(two, list_40_w(200, 200, 40, 39)), 19, 6));
    CHECK(is(arin_check(two, list_40_w(200, 200, 40, 41)), 19, 6));
    CHECK(lists(arin_build(a_little_more), list_40_w(204, 204, 40, 40)));
    CHECK(is(arin_check(a_little_more, list_40_w(204, 204, 41, 40)), 19, 5));

    CHECK(lists(arin_build(four), list_40_w(300, 266, 60, 53)));
    CHECK(is(arin_check(four, list_40_w(300, 266, 80, 53)), 0, 0));
    CHECK(is(arin_check(four, list_40_w(300, 266, 59, 53)), 19, 5));
    CHECK(is(arin_check(four, list_40_w(300, 266, 81, 53)), 19, 5));
    CHECK(is(arin_check(not_quite_four, list_40_w(300, 266, 79, 53)), 0, 0));
    CHECK(is(arin_check(not_quite_four, list_40_w(300, 266, 80, 53)), 19, 5));
}

static void shapes(void)
{
    CHECK(is(arin_shape(list_l()), 0, 0));
    CHECK(is(arin_shape(list_36_w()), 0, 0));
    CHECK(is(arin_shape(list_of_three()), 0, 0));
    CHECK(is(arin_shape(words(0, 0, 0, 0, 0, 0, 0)), ARIN_COUNT, 0));
    CHECK(is(arin_shape(words(8, 0x0001912C, 0, 0, 0, 0, 0)), 10, 0));
    CHECK(is(arin_shape(words(255, 0x0001912C, 0, 0, 0, 0, 0)), 10, 0));
    CHECK(is(arin_shape(words(1, 0x0002D12C, 0, 0, 0, 0, 0)), ARIN_FIRST_NOT_FIXED_5_V, 1));
    CHECK(is(arin_shape(after_5_v(0xD0000000)), ARIN_KIND_NOT_ALLOWED, 2));
    CHECK(is(arin_shape(after_5_v(0xF0000000)), 12, 2));
    CHECK(is(arin_shape(words(1, 0x0041912C, 0, 0, 0, 0, 0)), ARIN_RESERVED_BIT, 1));
    CHECK(is(arin_shape(after_5_v(0x0042D12C)), 13, 2));
    CHECK(is(arin_shape(words(3, 0x0001912C, 0x0004B12C, 0x0002D12C, 0, 0, 0)), ARIN_ORDER, 3));
    /* 20.05 V at 1 A, then 20 V at 5.01 A. */
    CHECK(is(arin_shape(after_5_v(0x00064464)), ARIN_VOLTAGE_BOUND, 2));
    CHECK(is(arin_shape(after_5_v(0x000641F5)), ARIN_POWER_OVER_100_W, 2));
    CHECK(is(arin_shape(words(5, 0x0001912C, 0x0002D12C, 0x0004B12C, 0x00064145, 0xE004B144, 0)), ARIN_AVS_DIFFERS, 5));
}

static void reading(void)
{
    CHECK(reads(arin_read(list_36_w()), objects_36_w()));
    CHECK(reads(arin_read(list_of_three()), objects_of_three()));
    CHECK(no_reading(arin_read(words(0, 0, 0, 0, 0, 0, 0)), 10, 0));
    CHECK(no_reading(arin_read(words(8, 0x0001912C, 0, 0, 0, 0, 0)), 10, 0));
    CHECK(no_reading(arin_read(words(1, 0x0002D12C, 0, 0, 0, 0, 0)), 11, 1));
    CHECK(no_reading(arin_read(after_5_v(0xD0000000)), 12, 2));
}

static void writing(void)
{
    struct arin_flat_objects list = objects_36_w();

    CHECK(lists(arin_write(list), list_36_w()));
    CHECK(lists(arin_write(objects_of_three()), list_of_three()));
    /* Fields that the kind does not have are not read. */
    list.places[0].limited = 255;
    list.places[0].high = 65535;
    list.places[3].current = 65535;
    CHECK(lists(arin_write(list), list_36_w()));

    list = objects_36_w();
    list.count = 0;
    CHECK(no_list(arin_write(list), ARIN_COUNT, 0));
    list.count = 8;
    CHECK(no_list(arin_write(list), 10, 0));
    list = objects_36_w();
    list.places[1].current = 1024;
    CHECK(no_list(arin_write(list), ARIN_FIELD_TOO_WIDE, 2));
    list = objects_36_w();
    list.places[0].volts = 101;
    list.places[5].limited = 2;
    CHECK(no_list(arin_write(list), 7, 6));
    list.places[5].limited = 1;
    CHECK(no_list(arin_write(list), ARIN_FIRST_NOT_FIXED_5_V, 1));
    list = objects_36_w();
    list.places[1].flags = 1;
    CHECK(no_list(arin_write(list), ARIN_RESERVED_BIT, 2));
}

/* Kinds that are none: 10, 7 and 11 come before 12, and so does what is wrong with the words before it. */
static void writing_no_kind(void)
{
    const struct arin_flat_object five = fixed(0, 100, 300), nine = fixed(0, 180, 300), fifteen = fixed(0, 300, 300);
    const struct arin_flat_object wide = fixed(200, 180, 300), flagged = fixed(1, 180, 300);
    const struct arin_flat_object falling = fixed(0, 66, 300), high = fixed(0, 401, 300), strong = fixed(0, 400, 501);
    struct arin_flat_object none = no_object(5);
    struct arin_flat_objects list;
    int i;

    CHECK(no_list(arin_write(starting(0, none, none, none)), ARIN_COUNT, 0));
    CHECK(no_list(arin_write(starting(8, none, wide, none)), 10, 0));
    CHECK(lists(arin_write(starting(1, five, none, wide)), words(1, 0x0001912C, 0, 0, 0, 0, 0)));

    CHECK(no_list(arin_write(starting(2, none, wide, none)), ARIN_FIELD_TOO_WIDE, 2));
    CHECK(no_list(arin_write(starting(3, five, none, wide)), 7, 3));
    CHECK(no_list(arin_write(starting(3, five, wide, none)), 7, 2));

    CHECK(no_list(arin_write(starting(1, none, none, none)), ARIN_FIRST_NOT_FIXED_5_V, 1));
    CHECK(no_list(arin_write(starting(2, none, high, none)), 11, 1));
    CHECK(no_list(arin_write(starting(3, nine, fifteen, no_object(9))), 11, 1));

    CHECK(no_list(arin_write(starting(3, five, flagged, none)), ARIN_RESERVED_BIT, 2));
    CHECK(no_list(arin_write(starting(3, five, falling, none)), ARIN_ORDER, 2));
    CHECK(no_list(arin_write(starting(3, five, high, none)), ARIN_VOLTAGE_BOUND, 2));
    CHECK(no_list(arin_write(starting(3, five, strong, none)), ARIN_POWER_OVER_100_W, 2));

    CHECK(no_list(arin_write(starting(2, five, none, none)), ARIN_KIND_NOT_ALLOWED, 2));
    CHECK(no_list(arin_write(starting(3, five, none, falling)), 12, 2));
    CHECK(no_list(arin_write(starting(7, five, nine, fifteen)), 12, 4));
    /* 12 comes before 17: there is no 15 V. */
    CHECK(no_list(arin_write(starting(3, five, avs(0, 300, 0), none)), 12, 3));
    /* The seventh of the 36 W list. */
    list = objects_36_w();
    list.count = 7;
    CHECK(no_list(arin_write(list), 12, 7));

    /* Every number but 0 to 4, and no field that could be too wide. */
    none.flags = none.peak = none.limited = 255;
    none.volts = none.max = none.min = none.power = none.current = 65535;
    none.max100 = none.min100 = none.current50 = none.low = none.high = 65535;
    for (i = 5; i < 256; i++) {
        none.kind = (uint8_t)i;
        CHECK(no_list(arin_write(starting(2, five, none, none)), 12, 2));
    }
}

/* 600 steps of 25 mV are 15.0 V, 596 are 14.9 V, 356 are 8.9 V; 65 steps of 50 mA are 3.25 A. */
static void answers(void)
{
    struct arin_words l = list_l();
    struct arin_words three = list_of_three();

    CHECK(is(arin_answer(l, ask_volts(5, 600, 65)), 0, 0));
    CHECK(is(arin_answer(l, ask_volts(5, 600, 66)), ARIN_OPERATING_TOO_LARGE, 0));
    CHECK(is(arin_answer(l, ask_volts(5, 596, 65)), 24, 0));
    CHECK(is(arin_answer(l, ask_volts(5, 602, 65)), ARIN_AVS_VOLTAGE_NOT_WHOLE, 0));
    CHECK(is(arin_answer(l, ask_volts(5, 356, 65)), ARIN_VOLTAGE_OUTSIDE, 0));
    CHECK(is(arin_answer(l, ask_volts(6, 600, 65)), ARIN_POSITION, 0));
    CHECK(is(arin_answer(l, 0), 20, 0));
    CHECK(is(arin_answer(l, ask(4, 325)), 0, 0));
    CHECK(is(arin_answer(l, ask(4, 326)), 24, 0));
    CHECK(is(arin_answer(l, 0x40051546), ARIN_MAXIMUM_TOO_LARGE, 0));
    CHECK(is(arin_answer(l, 0x44051546), 0, 0));
    /* 9 V Prog of the 36 W list: 11 V is 550 steps of 20 mV. */
    CHECK(is(arin_answer(list_36_w(), ask_volts(5, 550, 60)), 0, 0));
    CHECK(is(arin_answer(list_36_w(), ask_volts(5, 551, 60)), 22, 0));
    CHECK(is(arin_answer(three, ask(2, 400)), 0, 0));
    CHECK(is(arin_answer(three, ask(2, 401)), 24, 0));
    CHECK(is(arin_answer(three, ask(3, 200)), 0, 0));
    CHECK(is(arin_answer(words(0, 0, 0, 0, 0, 0, 0), ask(4, 325)), ARIN_COUNT, 0));
    CHECK(is(arin_answer(after_5_v(0xD0000000), ask(1, 300)), ARIN_KIND_NOT_ALLOWED, 2));
}

/* Bits 27, 21 and 20 beside two figures, bits 27, 21, 8 and 7 beside a voltage, and bit 21 alone. */
enum { BESIDE_FIGURES = 0x08300000, BESIDE_VOLTAGE = 0x08200180, BIT_21 = 0x00200000 };

static void reserved_bits_are_ignored(void)
{
    struct arin_words l = list_l();
    struct arin_words three = list_of_three();
    uint32_t at;

    for (at = 1; at <= 4; at++) {
        CHECK(is(arin_answer(l, ask(at, 300) | BIT_21), 0, 0));
        CHECK(is(arin_answer(l, ask(at, 300) | BESIDE_FIGURES), 0, 0));
        CHECK(is(arin_answer(l, ask(at, 326) | BESIDE_FIGURES), 24, 0));
    }
    CHECK(is(arin_answer(three, ask(2, 400) | BIT_21), 0, 0));
    CHECK(is(arin_answer(three, ask(2, 401) | BESIDE_FIGURES), 24, 0));
    CHECK(is(arin_answer(three, ask(3, 200) | BIT_21), 0, 0));
    CHECK(is(arin_answer(three, ask(3, 200) | BESIDE_FIGURES), 0, 0));
    CHECK(is(arin_answer(l, 0x40051546 | BESIDE_FIGURES), ARIN_MAXIMUM_TOO_LARGE, 0));
    CHECK(is(arin_answer(list_36_w(), ask_volts(5, 550, 60) | BIT_21), 0, 0));
    CHECK(is(arin_answer(list_36_w(), ask_volts(5, 550, 60) | BESIDE_VOLTAGE), 0, 0));
    CHECK(is(arin_answer(list_36_w(), ask_volts(5, 551, 60) | BESIDE_VOLTAGE), 22, 0));
    CHECK(is(arin_answer(l, ask_volts(5, 600, 65) | BIT_21), 0, 0));
    CHECK(is(arin_answer(l, ask_volts(5, 600, 65) | BESIDE_VOLTAGE), 0, 0));
    CHECK(is(arin_answer(l, ask_volts(5, 600, 66) | BESIDE_VOLTAGE), 24, 0));
    CHECK(is(arin_answer(l, ask_volts(5, 602, 65) | BESIDE_VOLTAGE), ARIN_AVS_VOLTAGE_NOT_WHOLE, 0));
    /* Bit 20 is the top of a voltage. */
    CHECK(is(arin_answer(l, ask_volts(5, 600, 65) | 0x00100000), 22, 0));
}

/* ---- Messages ---- */

/* Both ways of taking bytes apart give the message, and do not write them. */
static int reads_message(struct arin_message m)
{
    struct buffer b = laid(m);

    return is_message(arin_read_message(b.bytes, b.length), m) && is_message(arin_take_message(b.bytes, b.length), m) &&
           is_buffer(b, laid(m));
}

/* Both refuse, in the same way. */
static int reads_none(struct buffer b, int number)
{
    return no_message(arin_read_message(b.bytes, b.length), number, 0) &&
           no_message(arin_take_message(b.bytes, b.length), number, 0);
}

/* The bytes are those that were laid by hand, and what lies past them is as it was, lent or not. */
static int writes_message(struct arin_message m, size_t room)
{
    struct buffer b = untouched(room);
    struct arin_written w = arin_write_message(b.bytes, b.length, m);

    return is(w.verdict, 0, 0) && w.length == laid(m).length && is_buffer(b, laid(m));
}

static int writes_none(struct arin_message m, size_t room, int number, int place)
{
    struct buffer b = untouched(room);
    struct arin_written w = arin_write_message(b.bytes, b.length, m);

    return is(w.verdict, number, place) && w.length == 0 && is_buffer(b, untouched(room));
}

/* The bytes as the statement has them. */
static void worked_messages(void)
{
    static const uint8_t of_list[] = { 0xA1, 0x61, 0x2C, 0x91, 0x01, 0x00, 0x2C, 0xD1, 0x02, 0x00, 0xF0, 0xB0, 0x04,
                                       0x00, 0x00, 0xC0, 0x03, 0xE0, 0x3C, 0x32, 0xDC, 0xC8, 0x30, 0x32, 0x40, 0xC9 };
    static const uint8_t of_request[] = { 0x82, 0x12, 0x45, 0x15, 0x05, 0x40 };
    struct arin_message list = capabilities(list_36_w()), request = a_request(0x40051545);
    uint8_t buffer[ARIN_LONGEST_MESSAGE];
    struct arin_written w;
    size_t i;

    CHECK(is_message(arin_read_message(of_list, sizeof of_list), list));
    CHECK(is_message(arin_take_message(of_list, sizeof of_list), list));
    w = arin_write_message(buffer, sizeof buffer, list);
    CHECK(is(w.verdict, ARIN_SUCCESS, 0) && w.length == sizeof of_list);
    for (i = 0; i < sizeof of_list; i++)
        CHECK(buffer[i] == of_list[i]);

    CHECK(is_message(arin_read_message(of_request, sizeof of_request), request));
    CHECK(is_message(arin_take_message(of_request, sizeof of_request), request));
    w = arin_write_message(buffer, sizeof buffer, request);
    CHECK(is(w.verdict, 0, 0) && w.length == sizeof of_request);
    for (i = 0; i < sizeof of_request; i++)
        CHECK(buffer[i] == of_request[i]);
    for (; i < sizeof of_list; i++)
        CHECK(buffer[i] == of_list[i]);
}

/* Lists of each length that is built, and words that no list would have. */
static void good_messages(void)
{
    uint16_t max;

    for (max = 1; max <= 200; max++) {
        struct arin_message m = capabilities(arin_build(profile(max, max, 500, 0, 1, 0)).list);

        CHECK(reads_message(m) && writes_message(m, ARIN_LONGEST_MESSAGE));
    }
    CHECK(laid(capabilities(arin_build(profile(91, 91, 300, 0, 1, 0)).list)).length == ARIN_LONGEST_MESSAGE);
    CHECK(reads_message(capabilities(list_of_three())) && writes_message(capabilities(list_of_three()), ROOM));
    CHECK(reads_message(a_request(0)) && writes_message(a_request(0), ROOM));
    CHECK(reads_message(a_request(0xFFFFFFFF)) && writes_message(a_request(0xFFFFFFFF), ROOM));
}

/* Message id, roles and revision are carried, whatever they are, in both types. */
static void carried_fields(void)
{
    int i;

    for (i = 0; i < 8 * 2 * 4 * 2; i++) {
        const uint8_t id = (uint8_t)(i % 8), power_role = (uint8_t)(i / 8 % 2);
        const uint8_t revision = (uint8_t)(i / 16 % 4), data_role = (uint8_t)(i / 64);
        struct arin_message m = message(id, power_role, revision, data_role, ARIN_SOURCE_CAPABILITIES, list_l());

        CHECK(reads_message(m) && writes_message(m, ROOM));
        m = message(id, power_role, revision, data_role, ARIN_REQUEST, words(1, 0x40051545, 0, 0, 0, 0, 0));
        CHECK(reads_message(m) && writes_message(m, ROOM));
    }
}

/* What was read can be written, and what was written can be read. */
static void messages_there_and_back(void)
{
    struct arin_message m = capabilities(list_l());
    struct buffer b = untouched(ROOM), once_more = untouched(ROOM);

    b.length = arin_write_message(b.bytes, b.length, m).length;
    CHECK(b.length == 22 && is_message(arin_read_message(b.bytes, b.length), m));
    m = arin_read_message(b.bytes, b.length).message;
    CHECK(arin_write_message(once_more.bytes, ROOM, m).length == 22 && is_buffer(once_more, b));
}

/* Any count with any number of bytes. 40 comes before 42 and 41. */
static void refused_by_length(void)
{
    static uint8_t many[256 + 6] = { 0x82, 0x12, 0x45, 0x15, 0x05, 0x40 };
    struct buffer b;
    int count;

    for (count = 0; count <= 7; count++) {
        struct arin_message m = message(7, 1, 3, 1, 31, list_36_w());
        size_t length;

        m.header.extended = 1;
        m.header.count = (uint8_t)count;
        b = laid(m);
        length = b.length;
        for (b.length = 0; b.length <= ROOM; b.length++)
            CHECK(reads_none(b, b.length == length ? ARIN_EXTENDED_MESSAGE : ARIN_MESSAGE_LENGTH));
    }
    b = laid(a_request(0x40051545));
    for (b.length = 0; b.length <= ROOM; b.length++)
        CHECK(b.length == 6 || reads_none(b, 40));
    /* In 8 bits they would be 6. */
    CHECK(no_message(arin_read_message(many, sizeof many), 40, 0));
    CHECK(no_message(arin_take_message(many, sizeof many), 40, 0));
    CHECK(is_message(arin_read_message(many, 6), a_request(0x40051545)));
}

/* Every type with every count, extended or not. 42 comes before 41 and 53, and these before the list. */
static void refused_by_header(void)
{
    const struct arin_words seven = arin_build(profile(91, 91, 300, 0, 1, 0)).list;
    int type, count;

    for (type = 0; type < 32; type++) {
        for (count = 0; count <= 7; count++) {
            struct arin_message m = message(2, 1, 1, 0, (uint8_t)type, seven);

            m.header.count = (uint8_t)count;
            if (type == ARIN_REQUEST && count != 1)
                CHECK(reads_none(laid(m), ARIN_REQUEST_COUNT) && writes_none(m, ROOM, ARIN_REQUEST_COUNT, 0));
            else if (type != ARIN_REQUEST && type != ARIN_SOURCE_CAPABILITIES)
                CHECK(reads_none(laid(m), ARIN_TYPE_NOT_HANDLED) && writes_none(m, ROOM, ARIN_TYPE_NOT_HANDLED, 0));
            else if (count != 0)
                CHECK(reads_message(m) && writes_message(m, ROOM));
            m.header.extended = 1;
            CHECK(reads_none(laid(m), ARIN_EXTENDED_MESSAGE) && writes_none(m, ROOM, ARIN_EXTENDED_MESSAGE, 0));
        }
    }
}

/* Refused with the number and the place of the shape check, taken apart as it stands. 52 comes before, and all of the header. */
static void refused_list(struct arin_words list, int number, int place)
{
    struct arin_message m = capabilities(list);
    struct buffer b = laid(m);

    CHECK(is(arin_shape(list), number, place));
    CHECK(no_message(arin_read_message(b.bytes, b.length), number, place));
    CHECK(is_message(arin_take_message(b.bytes, b.length), m));
    CHECK(writes_none(m, b.length, number, place));
    CHECK(writes_none(m, b.length - 1, ARIN_BUFFER_TOO_SHORT, 0));
    m.header.extended = 1;
    CHECK(reads_none(laid(m), 42) && writes_none(m, ROOM, 42, 0));
    m.header.extended = 0;
    m.header.message_type = 3;
    CHECK(reads_none(laid(m), 41) && writes_none(m, ROOM, 41, 0));
}

static void refused_by_list(void)
{
    refused_list(words(0, 0, 0, 0, 0, 0, 0), ARIN_COUNT, 0);
    refused_list(words(1, 0x0002D12C, 0, 0, 0, 0, 0), ARIN_FIRST_NOT_FIXED_5_V, 1);
    refused_list(after_5_v(0xD0000000), ARIN_KIND_NOT_ALLOWED, 2);
    refused_list(after_5_v(0x0042D12C), ARIN_RESERVED_BIT, 2);
    refused_list(words(3, 0x0001912C, 0x0004B12C, 0x0002D12C, 0, 0, 0), ARIN_ORDER, 3);
    refused_list(after_5_v(0x00064464), ARIN_VOLTAGE_BOUND, 2);
    refused_list(after_5_v(0x000641F5), ARIN_POWER_OVER_100_W, 2);
    refused_list(words(5, 0x0001912C, 0x0002D12C, 0x0004B12C, 0x00064145, 0xE004B144, 0), ARIN_AVS_DIFFERS, 5);
    /* list_36_w, and a seventh word of no kind. */
    refused_list(words(7, 0x0001912C, 0x0002D12C, 0x0004B0F0, 0xE003C000, 0xC8DC323C, 0xC9403230), 12, 7);
}

/* Each field of the header at the end of its width, one past it, and as wide as a byte goes. 51 comes before all else. */
static void wide_fields(void)
{
    static const uint8_t one_past[] = { 2, 8, 8, 2, 4, 2, 32 };
    const struct arin_message good = a_request(0x40051545);
    int i;

    for (i = 0; i < 7; i++) {
        struct arin_message m = good;
        uint8_t *const fields[] = { &m.header.extended, &m.header.count,     &m.header.id,          &m.header.power_role,
                                    &m.header.revision, &m.header.data_role, &m.header.message_type };
        struct buffer b = untouched(ROOM);

        *fields[i] = (uint8_t)(one_past[i] - 1);
        CHECK(arin_write_message(b.bytes, b.length, m).verdict.number != ARIN_HEADER_FIELD_TOO_WIDE);
        *fields[i] = one_past[i];
        CHECK(writes_none(m, ROOM, ARIN_HEADER_FIELD_TOO_WIDE, 0));
        *fields[i] = 255;
        CHECK(writes_none(m, ROOM, 51, 0));
        if (i != 0)
            m.header.extended = 1;
        if (i != 6)
            m.header.message_type = 3;
        CHECK(writes_none(m, 0, 51, 0));
    }
}

/* A message with every fault, and then one less each time. */
static void faults_in_order(void)
{
    struct arin_message m = a_request(0x40051545);

    m.header.id = 8;
    m.header.extended = 1;
    m.header.message_type = 3;
    m.header.count = 2;
    CHECK(writes_none(m, 0, 51, 0));
    m.header.id = 7;
    CHECK(writes_none(m, 0, 42, 0));
    m.header.extended = 0;
    CHECK(writes_none(m, 0, 41, 0));
    m.header.message_type = ARIN_REQUEST;
    CHECK(writes_none(m, 0, 53, 0));
    m.header.count = 1;
    CHECK(writes_none(m, 0, 52, 0));
    CHECK(writes_message(m, 6));
    /* The same word as a list of one. */
    m.header.message_type = ARIN_SOURCE_CAPABILITIES;
    CHECK(writes_none(m, 5, 52, 0));
    CHECK(writes_none(m, 6, 11, 1));
}

/* Every buffer that is too short, and some that are not. */
static void rooms(void)
{
    static uint8_t many[256];
    size_t room;

    /* In 8 bits they would be none. */
    CHECK(is(arin_write_message(many, sizeof many, a_request(0x40051545)).verdict, 0, 0));
    for (room = 0; room <= ROOM; room++) {
        CHECK(room < 6 ? writes_none(a_request(0x40051545), room, ARIN_BUFFER_TOO_SHORT, 0)
                       : writes_message(a_request(0x40051545), room));
        CHECK(room < 26 ? writes_none(capabilities(list_36_w()), room, 52, 0) : writes_message(capabilities(list_36_w()), room));
    }
}

/* A length of zero, whatever the pointer. */
static void no_bytes(uint8_t *bytes)
{
    struct arin_message m = a_request(0x40051545);
    struct arin_written w = arin_write_message(bytes, 0, m);

    CHECK(no_message(arin_read_message(bytes, 0), 40, 0));
    CHECK(no_message(arin_take_message(bytes, 0), 40, 0));
    CHECK(is(w.verdict, 52, 0) && w.length == 0);
    m.header.count = 2;
    w = arin_write_message(bytes, 0, m);
    CHECK(is(w.verdict, 53, 0) && w.length == 0);
    m.header.count = 8;
    w = arin_write_message(bytes, 0, m);
    CHECK(is(w.verdict, 51, 0) && w.length == 0);
}

/* ---- Ports that share ---- */

/* The run of the statement's hand-worked cases: capacity 200, two rows of M 130, cables of 500. */
static void marked_run(void)
{
    struct arin_words at_70 = words(5, 0x0001912C, 0x0002D12C, 0x0004B0E9, 0x000640AF, 0xE003A4AF, 0);
    struct arin_row r[2];

    r[0] = row(130, 0, 4, 99, 3);
    r[1] = row(130, 0, 65535, 65535, 65535);
    CHECK(is(arin_set_up(r, 2, 200), 0, 0));
    CHECK(is_row(r[0], row(130, 0, 0, 0, 15)) && is_row(r[1], row(130, 0, 0, 0, 15)));
    CHECK(is_power(arin_remaining(r, 2, 200), 0, 0, 170));

    CHECK(lists(arin_attach(r, 2, 200, 1, 500), list_l()));
    CHECK(is_row(r[0], row(130, 0, 500, 130, 15)) && is_row(r[1], row(130, 0, 0, 0, 15)));
    CHECK(is(arin_request(r, 2, 200, 1, ask(4, 325)), 0, 0));
    CHECK(is_row(r[0], row(130, 0, 500, 130, 130)) && is_row(r[1], row(130, 0, 0, 0, 15)));
    CHECK(is_power(arin_remaining(r, 2, 200), 0, 0, 55));
    CHECK(lists(arin_attach(r, 2, 200, 2, 500), at_70));
    CHECK(is_row(r[1], row(130, 0, 500, 70, 15)));

    CHECK(is(arin_request(r, 2, 200, 1, ask(2, 200)), 0, 0));
    CHECK(is_row(r[0], row(130, 0, 500, 130, 36)));
    CHECK(lists(arin_advertise(r, 2, 200, 2), list_l()));
    CHECK(is_row(r[1], row(130, 0, 500, 130, 15)));
    CHECK(is(arin_request(r, 2, 200, 2, ask(4, 325)), 0, 0));
    CHECK(is_row(r[1], row(130, 0, 500, 130, 130)));
    CHECK(is(arin_request(r, 2, 200, 1, ask(4, 325)), ARIN_NO_POWER_NOW, 1));
    CHECK(is_row(r[0], row(130, 0, 500, 130, 36)) && is_row(r[1], row(130, 0, 500, 130, 130)));
    CHECK(is(arin_request(r, 2, 200, 1, ask(2, 300)), 0, 0));
    CHECK(is_row(r[0], row(130, 0, 500, 130, 54)));
    CHECK(is_power(arin_remaining(r, 2, 200), 0, 0, 16));

    CHECK(is(arin_detach(r, 2, 200, 2), 0, 0));
    CHECK(is_row(r[0], row(130, 0, 500, 130, 54)) && is_row(r[1], row(130, 0, 0, 0, 15)));
    CHECK(is_power(arin_remaining(r, 2, 200), 0, 0, 131));
}

/* A request with reserved bits holds what it holds without them: 20 V at 3.25 A 130, 15.0 V at 3.25 A of AVS 98, 9 V at 3 A of PPS 54. */
static void reserved_bits_hold_the_same(void)
{
    struct arin_row start = row(130, 0, 500, 130, 15);
    struct arin_row pps = row(54, 1, 300, 54, 15);
    struct arin_row r[2];

    r[0] = start;
    r[1] = row(130, 0, 500, 130, 70);
    CHECK(is(arin_request(r, 2, 200, 1, ask(4, 325) | BIT_21), 0, 0));
    CHECK(is_row(r[0], row(130, 0, 500, 130, 130)) && is_row(r[1], row(130, 0, 500, 130, 70)));
    r[0] = start;
    CHECK(is(arin_request(r, 2, 200, 1, ask(4, 325) | BESIDE_FIGURES), 0, 0));
    CHECK(is_row(r[0], row(130, 0, 500, 130, 130)) && is_row(r[1], row(130, 0, 500, 130, 70)));
    r[0] = start;
    CHECK(is(arin_request(r, 2, 200, 1, ask_volts(5, 600, 65) | BESIDE_VOLTAGE), 0, 0));
    CHECK(is_row(r[0], row(130, 0, 500, 130, 98)) && is_row(r[1], row(130, 0, 500, 130, 70)));
    r[0] = pps;
    CHECK(is(arin_request(r, 2, 200, 1, ask_volts(3, 450, 60) | BESIDE_VOLTAGE), 0, 0));
    CHECK(is_row(r[0], row(54, 1, 300, 54, 54)) && is_row(r[1], row(130, 0, 500, 130, 70)));
    /* 199 less 70 is one less than 130. */
    r[0] = start;
    CHECK(is(arin_request(r, 2, 199, 1, ask(4, 325) | BESIDE_FIGURES), ARIN_NO_POWER_NOW, 1));
    CHECK(is_row(r[0], start) && is_row(r[1], row(130, 0, 500, 130, 70)));
}

/* One port of 36 W with PPS gets the listing of the README. Eight ports are the most. */
static void more_runs(void)
{
    struct arin_row r[8];
    int i;

    for (i = 0; i < 8; i++)
        r[i] = row(72, 1, 0, 0, 0);
    CHECK(is(arin_set_up(r, 1, 1600), 0, 0));
    CHECK(lists(arin_attach(r, 1, 1600, 1, 300), list_36_w()));
    CHECK(is_row(r[0], row(72, 1, 300, 72, 15)) && is_row(r[1], row(72, 1, 0, 0, 0)));
    CHECK(is(arin_set_up(r, 8, 120), 0, 0));
    for (i = 0; i < 8; i++)
        CHECK(is_row(r[i], row(72, 1, 0, 0, 15)));
    CHECK(lists(arin_attach(r, 8, 1600, 8, 300), list_36_w()));
    CHECK(is_row(r[7], row(72, 1, 300, 72, 15)));
    CHECK(is_power(arin_remaining(r, 8, 1600), 0, 0, 1480));
}

/* What the README says of a hard reset, for port 1 that holds 65 W while port 2 is empty. */
static void hard_reset(void)
{
    struct arin_row holds = row(130, 0, 500, 130, 130);
    struct arin_row r[2];

    /* Detach and attach: the list is new, and port 2 can have what was held. */
    r[0] = holds;
    r[1] = row(130, 0, 0, 0, 15);
    CHECK(is(arin_detach(r, 2, 200, 1), 0, 0));
    CHECK(lists(arin_attach(r, 2, 200, 1, 500), list_l()));
    CHECK(is_row(r[0], row(130, 0, 500, 130, 15)));
    CHECK(lists(arin_attach(r, 2, 200, 2, 500), list_l()));
    CHECK(is(arin_request(r, 2, 200, 2, ask(4, 325)), 0, 0));
    CHECK(is(arin_request(r, 2, 200, 1, ask(4, 325)), ARIN_NO_POWER_NOW, 1));

    /* Advertise: what port 1 held is kept for it, and port 2 gets a list of the rest. */
    r[0] = holds;
    r[1] = row(130, 0, 0, 0, 15);
    CHECK(lists(arin_advertise(r, 2, 200, 1), list_l()));
    CHECK(is_row(r[0], holds));
    CHECK(arin_attach(r, 2, 200, 2, 500).verdict.number == 0 && r[1].present == 70);
    CHECK(is(arin_request(r, 2, 200, 1, ask(4, 325)), 0, 0));
}

/* The flags of a shared list are 0. A board may set them in the first word: no check minds, and the answers stay. */
static void flags_of_a_shared_list(void)
{
    struct arin_row r[1];
    struct arin_listing l;
    int bit;

    r[0] = row(130, 0, 0, 0, 15);
    l = arin_attach(r, 1, 200, 1, 500);
    CHECK(lists(l, list_l()) && (l.list.words[0] & 0x3F800000) == 0);
    for (bit = 24; bit <= 29; bit++) {
        struct arin_words sent = l.list;

        sent.words[0] |= (uint32_t)1 << bit;
        CHECK(is(arin_shape(sent), 0, 0));
        CHECK(is(arin_check(profile(130, 130, 500, 0, 0, 0), sent), 0, 0));
        CHECK(is(arin_answer(sent, ask(1, 300)), 0, 0));
        CHECK(is(arin_answer(sent, ask(1, 301)), 24, 0));
        /* As a profile's flags it is the bit less 24. */
        CHECK(lists(arin_build(profile(130, 130, 500, 0, 0, (uint8_t)(1 << (bit - 24)))), sent));
    }
    CHECK(is(arin_request(r, 1, 200, 1, ask(1, 300)), 0, 0));
    CHECK(is(arin_request(r, 1, 200, 1, ask(1, 301)), 24, 0));
}

static void sets_up_none(void)
{
    struct arin_row r[2];

    r[0] = row(130, 0, 1, 2, 3);
    r[1] = row(14, 2, 1, 2, 3);
    CHECK(is(arin_set_up(r, 2, 29), ARIN_CAPACITY, 0));
    CHECK(is(arin_set_up(r, 2, 1601), 32, 0));
    CHECK(is(arin_set_up(r, 2, 200), ARIN_SET_UP_MAXIMUM, 2));
    CHECK(is_row(r[0], row(130, 0, 1, 2, 3)) && is_row(r[1], row(14, 2, 1, 2, 3)));
    r[1] = row(200, 2, 1, 2, 3);
    CHECK(is(arin_set_up(r, 2, 200), ARIN_NOT_A_CHOICE, 2));
    CHECK(is_row(r[0], row(130, 0, 1, 2, 3)) && is_row(r[1], row(200, 2, 1, 2, 3)));
}

/* Port 1 is attached and port 2 is empty. No call below writes a row. */
static void refused_for_their_own_reasons(void)
{
    struct arin_row one = row(130, 0, 500, 130, 36);
    struct arin_row two = row(130, 0, 0, 0, 15);
    struct arin_row r[2];

    r[0] = one;
    r[1] = two;
    CHECK(no_list(arin_attach(r, 2, 29, 9, 99), ARIN_CAPACITY, 0));
    CHECK(no_list(arin_attach(r, 2, 200, 0, 99), ARIN_NO_SUCH_PORT, 0));
    CHECK(no_list(arin_attach(r, 2, 200, 3, 99), 33, 0));
    CHECK(no_list(arin_attach(r, 2, 200, 1, 99), ARIN_CABLE, 0));
    CHECK(no_list(arin_attach(r, 2, 200, 1, 500), ARIN_PORT_IN_USE, 1));

    CHECK(no_list(arin_advertise(r, 2, 1601, 9), 32, 0));
    CHECK(no_list(arin_advertise(r, 2, 200, 3), 33, 0));
    CHECK(no_list(arin_advertise(r, 2, 200, 2), ARIN_PORT_NOT_ATTACHED, 2));

    CHECK(is(arin_request(r, 2, 1601, 9, 0), 32, 0));
    CHECK(is(arin_request(r, 2, 200, 255, 0), 33, 0));
    CHECK(is(arin_request(r, 2, 200, 2, 0), 35, 2));
    CHECK(is(arin_request(r, 2, 200, 1, 0), ARIN_POSITION, 0));
    CHECK(is(arin_request(r, 2, 200, 1, ask(4, 326)), ARIN_OPERATING_TOO_LARGE, 0));

    CHECK(is(arin_detach(r, 2, 1601, 9), 32, 0));
    CHECK(is(arin_detach(r, 2, 200, 3), 33, 0));
    CHECK(is(arin_detach(r, 2, 200, 2), 35, 2));

    CHECK(is_power(arin_remaining(r, 2, 1601), 32, 0, 0));
    CHECK(is_row(r[0], one) && is_row(r[1], two));
}

/* A port with a lead of 2 A of its own, beside one with a marked cable: what is held is what the lead lets through. */
static void shared_lead(void)
{
    struct arin_row r[2];

    r[0] = row(130, 0, 0, 0, 0);
    r[1] = row(130, 0, 0, 0, 0);
    CHECK(is(arin_set_up(r, 2, 200), 0, 0));
    CHECK(lists(arin_attach(r, 2, 200, 1, ARIN_AMPERES(2)), with_currents(200, 200, 200, 200)));
    CHECK(is_row(r[0], row(130, 0, 200, 130, 15)));
    CHECK(is(arin_request(r, 2, 200, 1, ask(4, 201)), ARIN_OPERATING_TOO_LARGE, 0));
    CHECK(is(arin_request(r, 2, 200, 1, ask(4, 200)), 0, 0));
    CHECK(is_row(r[0], row(130, 0, 200, 130, 80)));
    CHECK(lists(arin_attach(r, 2, 200, 2, ARIN_AMPERES(4)), with_currents(300, 300, 300, 300)));
    CHECK(is_row(r[1], row(130, 0, 400, 120, 15)));
    CHECK(lists(arin_advertise(r, 2, 200, 1), with_currents(200, 200, 200, 200)));
    CHECK(is_row(r[0], row(130, 0, 200, 130, 80)));
}

/* A row with a cable that is none is not sound, in every call but set-up, which does not look. 0 is an empty port, and has no P. */
static void rows_with_no_cable(void)
{
    int i;

    for (i = 0; i < NO_CABLES; i++) {
        const struct arin_row one = row(130, 0, 500, 130, 15), two = row(130, 0, no_cables[i], 130, 15);
        struct arin_row r[2];

        r[0] = one;
        r[1] = two;
        CHECK(no_list(arin_attach(r, 2, 200, 1, 500), ARIN_ROWS_NOT_SOUND, 2));
        CHECK(no_list(arin_advertise(r, 2, 200, 1), 37, 2));
        CHECK(is(arin_request(r, 2, 200, 1, ask(1, 300)), 37, 2));
        CHECK(is(arin_detach(r, 2, 200, 2), 37, 2));
        CHECK(is_power(arin_remaining(r, 2, 200), 37, 2, 0));
        CHECK(is_row(r[0], one) && is_row(r[1], two));
        CHECK(is(arin_set_up(r, 2, 200), 0, 0));
        CHECK(is_row(r[1], row(130, 0, 0, 0, 15)));
    }
    for (i = 100; i <= 500; i++) {
        const struct arin_row one = row(130, 0, (uint16_t)i, 130, 15);

        CHECK(is_power(arin_remaining(&one, 1, 200), 0, 0, 185));
    }
}

/* Rows that are not sound: a row at fault has its place, the sum has none. Set-up alone does not look. */
static void not_sound(void)
{
    struct arin_row one = row(130, 0, 500, 130, 130);
    struct arin_row two = row(130, 0, 500, 130, 14);
    struct arin_row r[2];

    r[0] = one;
    r[1] = two;
    CHECK(no_list(arin_attach(r, 2, 200, 9, 99), ARIN_ROWS_NOT_SOUND, 2));
    CHECK(no_list(arin_advertise(r, 2, 200, 9), 37, 2));
    CHECK(is(arin_request(r, 2, 200, 9, 0), 37, 2));
    CHECK(is(arin_detach(r, 2, 200, 9), 37, 2));
    CHECK(is_power(arin_remaining(r, 2, 200), 37, 2, 0));
    CHECK(is_row(r[0], one) && is_row(r[1], two));

    two = row(130, 0, 500, 130, 71);
    r[1] = two;
    CHECK(no_list(arin_attach(r, 2, 200, 9, 99), 37, 0));
    CHECK(no_list(arin_advertise(r, 2, 200, 9), 37, 0));
    CHECK(is(arin_request(r, 2, 200, 9, 0), 37, 0));
    CHECK(is(arin_detach(r, 2, 200, 9), 37, 0));
    CHECK(is_power(arin_remaining(r, 2, 200), 37, 0, 0));
    CHECK(is_row(r[0], one) && is_row(r[1], two));
}

/* The six calls with a count that is refused. The other arguments are good for the rows of `lent`. */
static void refused_by_count(struct arin_row *rows, size_t count)
{
    CHECK(is(arin_set_up(rows, count, 200), ARIN_ROW_COUNT, 0));
    CHECK(no_list(arin_attach(rows, count, 200, 2, 500), 30, 0));
    CHECK(no_list(arin_advertise(rows, count, 200, 1), 30, 0));
    CHECK(is(arin_request(rows, count, 200, 1, ask(1, 300)), 30, 0));
    CHECK(is(arin_detach(rows, count, 200, 1), 30, 0));
    CHECK(is_power(arin_remaining(rows, count, 200), 30, 0, 0));
}

static void counts(void)
{
    struct arin_row lent[9];
    int i;

    lent[0] = row(130, 0, 500, 130, 20);
    for (i = 1; i < 9; i++)
        lent[i] = row(130, 0, 0, 0, 15);

    refused_by_count(NULL, 0);
    refused_by_count((struct arin_row *)(uintptr_t)1, 0);
    refused_by_count(lent, 0);
    refused_by_count(lent, 9);
    CHECK(is_row(lent[0], row(130, 0, 500, 130, 20)));
    for (i = 1; i < 9; i++)
        CHECK(is_row(lent[i], row(130, 0, 0, 0, 15)));
}

int main(void)
{
    texts();
    watts();
    amperes();
    version();
    default_profiles();
    builds();
    builds_none();
    checks();
    cables_refused();
    cables_built();
    leads();
    leads_with_pps();
    shapes();
    reading();
    writing();
    writing_no_kind();
    answers();
    reserved_bits_are_ignored();
    worked_messages();
    good_messages();
    carried_fields();
    messages_there_and_back();
    refused_by_length();
    refused_by_header();
    refused_by_list();
    wide_fields();
    faults_in_order();
    rooms();
    no_bytes(NULL);
    no_bytes((uint8_t *)(uintptr_t)1);
    marked_run();
    reserved_bits_hold_the_same();
    more_runs();
    hard_reset();
    flags_of_a_shared_list();
    sets_up_none();
    refused_for_their_own_reasons();
    shared_lead();
    rows_with_no_cable();
    not_sound();
    counts();
    return told("calls");
}

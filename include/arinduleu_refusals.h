/*
 * The refusal numbers, and a sentence for each. It is a part of arinduleu.h, which includes it: a program includes that one.
 */
#ifndef ARINDULEU_REFUSALS_H
#define ARINDULEU_REFUSALS_H

/* The refusal numbers. There is no 8, and 21 is withdrawn: no call gives it, and it will not have another meaning. */
enum arin_refusal {
    ARIN_SUCCESS = 0,

    /* A profile. */
    ARIN_PORT_MAXIMUM = 1,      /* port maximum, or the rating of a sink, outside 1..200 */
    ARIN_PRESENT_POWER = 2,     /* present power outside 1..port maximum */
    ARIN_CABLE = 3,             /* cable outside 100..500, which is 1 A to 5 A */
    ARIN_NOT_A_CHOICE = 4,      /* rounding or PPS wanted above 1; at set-up the place is the row */
    ARIN_FLAGS = 5,             /* flags above 63 */
    ARIN_PPS_BELOW_MAXIMUM = 6, /* PPS wanted and present power below the maximum */

    /* Writing an object. */
    ARIN_FIELD_TOO_WIDE = 7, /* a field too wide for its bits; the place is the object */

    /* An input record of the program caps. No call gives it. */
    ARIN_RECORD_SHORT = 9,

    /* The shape of a list. The place of 11 to 17 is the word; of 12 from arin_answer_summary it is 0. */
    ARIN_COUNT = 10,               /* count not 1..7; that of a summary above 7 */
    ARIN_FIRST_NOT_FIXED_5_V = 11, /* first object not fixed 5 V */
    ARIN_KIND_NOT_ALLOWED = 12,    /* no kind of an SPR list; in that of a sink AVS too; for a summary battery too */
    ARIN_RESERVED_BIT = 13,        /* reserved bit set in an object */
    ARIN_ORDER = 14,               /* order of the objects, or a second AVS */
    ARIN_VOLTAGE_BOUND = 15,       /* fixed above 20 V; battery, variable or PPS above 21 V, or minimum above maximum */
    ARIN_POWER_OVER_100_W = 16,    /* fixed, battery or variable over 100 W */
    ARIN_AVS_DIFFERS = 17,         /* AVS differs from its fixed objects */

    /* A list against its profile. */
    ARIN_WRONG_SET = 18,           /* wrong set of objects */
    ARIN_CURRENT_NOT_ALLOWED = 19, /* the place is the first such word */

    /* A request. The place is always 0. */
    ARIN_POSITION = 20,              /* position not 1..count */
    ARIN_VOLTAGE_OUTSIDE = 22,       /* voltage outside the range of the object */
    ARIN_AVS_VOLTAGE_NOT_WHOLE = 23, /* AVS voltage not a whole 100 mV */
    ARIN_OPERATING_TOO_LARGE = 24,   /* operating figure above the advertised one */
    ARIN_MAXIMUM_TOO_LARGE = 25,     /* maximum figure above it, and no capability mismatch (bit 26) */

    /* Ports that share. */
    ARIN_ROW_COUNT = 30,         /* row count not 1..8 */
    ARIN_SET_UP_MAXIMUM = 31,    /* port maximum outside 15..200 at set-up; the place is the row */
    ARIN_CAPACITY = 32,          /* capacity outside 15 times the row count .. 1600 */
    ARIN_NO_SUCH_PORT = 33,      /* port not 1..row count */
    ARIN_PORT_IN_USE = 34,       /* the place is the row */
    ARIN_PORT_NOT_ATTACHED = 35, /* the place is the row */
    ARIN_NO_POWER_NOW = 36,      /* a good request, but the other ports hold the power; the place is the row */
    ARIN_ROWS_NOT_SOUND = 37,    /* the place is the first row at fault, or 0 when only the sum of what is held is */

    /* A message. The place is always 0. */
    ARIN_MESSAGE_LENGTH = 40,   /* fewer bytes than a header, or not as many as its count makes */
    ARIN_TYPE_NOT_HANDLED = 41, /* type not 1 or 2 */
    ARIN_EXTENDED_MESSAGE = 42, /* extended set */

    /* A sink list against its rating. The place is always 0. */
    ARIN_ABOVE_CEILING = 43, /* a current or a power above what the rating allows */

    /* A message again. */
    ARIN_HEADER_FIELD_TOO_WIDE = 51, /* in writing, a field of the header too wide for its bits */
    ARIN_BUFFER_TOO_SHORT = 52,      /* in writing, a buffer too short for the message */
    ARIN_REQUEST_COUNT = 53          /* a Request whose count is not 1 */
};

/*
 * One sentence for a refusal number, without a capital and a full stop, for a log or a screen. It is never null: a number that is
 * none gets a sentence that says so. It stands here and in no library, so a program that does not call it does not carry it.
 */
ARIN_MUST_USE static inline const char *arin_refusal_text(unsigned number)
{
    switch (number) {
#define ARIN_REFUSAL(number, name, sentence) \
    case number: \
        return sentence;
#include "arinduleu_refusals.inc"
#undef ARIN_REFUSAL
    default:
        return "there is no refusal of this number";
    }
}

#endif

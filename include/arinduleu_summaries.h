/*
 * Summaries: what a list allows, in millivolts and milliamperes, to be kept beside the list by whoever asks again and again, as a
 * display does; and the answers to requests from that alone. It is a part of arinduleu.h, which includes it: a program includes
 * that one.
 *
 * Make the summary anew whenever the list changes: an old one answers for the old list. Then, for each request word:
 *
 *   struct arin_flat_taken t = arin_take_request(list, word);
 *   struct arin_verdict v = t.verdict;
 *
 *   if (v.number == ARIN_SUCCESS && t.request.kind == ARIN_KIND_BATTERY)
 *       v = arin_answer(list, word);
 *   else if (v.number == ARIN_SUCCESS)
 *       v = arin_answer_summary(summary, t.request);
 *
 * For a list that arin_summarize took, v is what arin_answer gives.
 */
#ifndef ARINDULEU_SUMMARIES_H
#define ARINDULEU_SUMMARIES_H

/*
 * The four limits of a row. At exactly 15.0 V the larger of the two currents limits. They differ for AVS alone. A battery has a
 * power and no current: both are 0.
 */
enum arin_limit {
    ARIN_LOWEST = 0,     /* the lowest voltage, mV */
    ARIN_HIGHEST = 1,    /* the highest voltage, mV */
    ARIN_BELOW_15_V = 2, /* the greatest current below 15.0 V, mA */
    ARIN_ABOVE_15_V = 3  /* the greatest current above 15.0 V, mA; for AVS 0 where the range ends at 15 V */
};

/* The row of place n is rows[n - 1], and rows past the count are zero. A byte behind count belongs to no field: compare field by field. */
struct arin_summary {
    uint8_t count;                      /* 1..7; 0 on a refusal */
    uint16_t rows[ARIN_LIST_PLACES][4]; /* by place, and in a row by arin_limit */
};

struct arin_summarized {
    struct arin_verdict verdict;
    struct arin_summary summary;
};

/*
 * A request word taken apart for the kind of the object at its position. Each field has one unit, whatever the kind. A field that
 * the kind does not have is zero when it is given out, and not read when it is taken in. A byte behind mismatch belongs to no field:
 * compare requests field by field.
 */
struct arin_flat_request {
    uint8_t kind;       /* one of arin_kind; a request to a battery is for arin_answer, and has no figure here */
    uint8_t position;   /* the place of the object, from 1; 0 on a refusal */
    uint8_t mismatch;   /* capability mismatch, bit 26, of every kind: 0 or 1 as it is given out; taken in, each number but 0 is set.
                           Of PPS and AVS it does not count */
    uint16_t operating; /* fixed and variable: operating current, 10 mA */
    uint16_t maximum;   /* fixed and variable: maximum operating current, 10 mA */
    uint16_t volts20;   /* PPS: voltage, 20 mV */
    uint16_t volts25;   /* AVS: voltage, 25 mV */
    uint16_t current50; /* PPS and AVS: operating current, 50 mA */
};

struct arin_flat_taken {
    struct arin_verdict verdict;
    struct arin_flat_request request;
};

/*
 * The summary of a list.
 * Refusals: those of arin_shape, with their places.
 */
ARIN_MUST_USE struct arin_summarized arin_summarize(struct arin_words list);

/*
 * A request word (RDO) taken apart. Only the count of the list and the word at the position are looked at: whether the list has its
 * shape is for arin_summarize to say. Reserved bits of the request word are ignored, set or clear.
 * Refusals: 10, 20, 12 (the word at the position).
 */
ARIN_MUST_USE struct arin_flat_taken arin_take_request(struct arin_words list, uint32_t word);

/*
 * Whether a request that was taken apart may be accepted, by the summary of the list that was advertised: number 0 where it may. A
 * summary may hold any numbers. Its row at the position is taken as it stands, whatever object it was made from: so take the request
 * apart with the list that the summary is of. It knows nothing of other ports: where ports share, arin_request judges.
 * Refusals, all with place 0: 12 (the kind is none of fixed, variable, PPS and AVS), 10 (the count is above 7), 20, 23, 22, 24, 25.
 */
ARIN_MUST_USE struct arin_verdict arin_answer_summary(struct arin_summary summary, struct arin_flat_request request);

#endif

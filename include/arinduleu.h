/*
 * Arinduleu: what a USB-C charger port advertises (SPR source capabilities with SPR AVS), the answers to the requests that come
 * back, from the list or from a summary of it, the lists that a sink sends of what it needs, the messages that lists and requests
 * travel in, and one supply shared by up to eight ports.
 *
 * The same header serves two libraries with the same calls. Link one of them:
 *   - libboard.a, which `tools/c_archive.sh` writes to target/staticlib, for x86-64;
 *   - libarinduleu_c.a, which cargo makes from rust/c, for any target that rustc knows.
 * tools/install.sh installs either of them, as libarinduleu.a, with this header.
 *
 * Answers. Any argument may be wrong: the answer is then a refusal, with its number and its place. All else in the answer is
 * zero, a list is empty, and no row and no byte is written. Success is number 0, place 0. Each call names its refusals in the
 * order in which they are looked for: the first that applies is given. Places count from 1; where no place is named it is 0.
 * arinduleu_refusals.h names the numbers, and arin_refusal_text there has a sentence for each.
 *
 * Lists. A list is seven places and a count. Places past the count come back as zero and are not read on the way in.
 *
 * Rows. The caller keeps one row for each port and lends them to each sharing call, as a pointer and a count.
 *   - For a count above zero the caller owes a pointer to that many rows, aligned as `struct arin_row` is, that nothing else
 *     touches during the call (for arin_remaining: that nothing else writes). No library can check this.
 *   - A count of zero is refused with 30, whatever the pointer, null too.
 *   - A count above 8 is refused with 30. The rows are owed all the same.
 *   - A null pointer with a count above zero is a fault of the caller. libarinduleu_c.a takes it for no rows: 30. libboard.a does
 *     not look at the pointer: it reads row 1 there as soon as count and capacity pass, and what then happens is undefined.
 *   - Port n is rows[n - 1].
 *   - Set up once. After that only the calls write the rows.
 *
 * Bytes. The caller lends the bytes of a message, or the buffer for them, as a pointer and a length.
 *   - For a length above zero the caller owes a pointer to that many bytes that nothing else touches during the call (where a
 *     message is read: that nothing else writes). No library can check this.
 *   - A length of zero is no bytes, whatever the pointer, null too. Reading refuses it with 40, and writing with 52 where nothing
 *     before that applies.
 *   - A null pointer with a length above zero is a fault of the caller. libarinduleu_c.a takes it for no bytes. libboard.a does
 *     not look at the pointer, and what then happens is undefined.
 *
 * For C99 and later, and C++11 and later.
 *
 * Nothing is allocated, nothing blocks, and no state is kept but the rows. Calls on different rows, and on different bytes, may
 * run at the same time.
 */
#ifndef ARINDULEU_H
#define ARINDULEU_H

#include <stddef.h>
#include <stdint.h>

/* The version of the header, and of the library that it came with. */
#define ARIN_VERSION_MAJOR 0
#define ARIN_VERSION_MINOR 8
#define ARIN_VERSION_PATCH 0
#define ARIN_VERSION "0.8.0"

/*
 * Stands before every call: an answer that nobody looks at is a slip, and GCC and clang warn of it. Other compilers see nothing.
 * Who means to ignore one assigns it to something: GCC warns even behind (void). Define it before the header to have another mark, or none.
 */
#ifndef ARIN_MUST_USE
#if defined(__GNUC__) || defined(__clang__)
#define ARIN_MUST_USE __attribute__((warn_unused_result))
#else
#define ARIN_MUST_USE
#endif
#endif

/*
 * Every power here is a number of half watts. From whole watts, and from watts and a half: ARIN_WATTS(65) is 130, and
 * ARIN_WATTS_AND_A_HALF(7), 7.5 W, is 15. Of a constant they are one, and good for an initialiser, an enum or #if.
 */
#define ARIN_WATTS(watts) (2 * (watts))
#define ARIN_WATTS_AND_A_HALF(watts) (2 * (watts) + 1)

/*
 * And back, for printing without floating point; both are unsigned. 15 half watts print as 7.5 W with
 *   printf("%u.%u W", ARIN_WHOLE_WATTS(p), ARIN_TENTHS_OF_A_WATT(p))
 */
#define ARIN_WHOLE_WATTS(half_watts) ((half_watts) / 2u)
#define ARIN_TENTHS_OF_A_WATT(half_watts) ((half_watts) % 2u * 5u)

/*
 * A cable is what it carries, as a number of 10 mA. From whole amperes, and from amperes and tenths: ARIN_AMPERES(5) is 500, and
 * ARIN_AMPERES_AND_TENTHS(2, 5), 2.5 A, is 250. Of constants they are constants. A cable is 100..500: a bare number of amperes, as 3
 * or 5, is refused with 3, and never taken for another cable.
 */
#define ARIN_AMPERES(amperes) (100 * (amperes))
#define ARIN_AMPERES_AND_TENTHS(amperes, tenths) (100 * (amperes) + 10 * (tenths))

#include "arinduleu_refusals.h"

#ifdef __cplusplus
extern "C" {
#endif

/* The most words in a list and in a message, the most rows in a call, and the most bytes of a message. */
enum { ARIN_LIST_PLACES = 7, ARIN_MOST_ROWS = 8, ARIN_LONGEST_MESSAGE = 30 };

/* The kinds of objects, for arin_flat_object and arin_flat_request. */
enum arin_kind {
    ARIN_KIND_FIXED = 0,
    ARIN_KIND_BATTERY = 1,
    ARIN_KIND_VARIABLE = 2,
    ARIN_KIND_PPS = 3,
    ARIN_KIND_AVS = 4
};

/* The types of messages that are handled, for arin_header. */
enum arin_message_type {
    ARIN_SOURCE_CAPABILITIES = 1, /* its words are a list */
    ARIN_REQUEST = 2              /* its one word is a request */
};

/* What a call answers. */
struct arin_verdict {
    uint8_t number; /* one of arin_refusal */
    uint8_t place;  /* counts from 1; 0 where there is none */
};

/* What a list is built for and checked against. A byte behind flags belongs to no field: compare profiles field by field. */
struct arin_profile {
    uint16_t max;     /* port maximum, half watts, 1..200 */
    uint16_t present; /* present power, half watts, 1..max */
    uint16_t cable;   /* what it carries, 10 mA, 100..500 */
    uint8_t rounding; /* of the currents: 0 down, 1 up */
    uint8_t pps;      /* PPS wanted, 0 or 1 */
    uint8_t flags;    /* 0..63: bits 29..24 of the first word, such as 8 for unconstrained power, which is bit 27 */
};

struct arin_profiled {
    struct arin_verdict verdict;
    struct arin_profile profile;
};

/* A list as it goes over the wire: the words of Source_Capabilities, or of Sink_Capabilities, in order. */
struct arin_words {
    uint32_t words[ARIN_LIST_PLACES];
    uint8_t count; /* 1..7; 0 on a refusal */
};

struct arin_listing {
    struct arin_verdict verdict;
    struct arin_words list;
};

/*
 * One object of any kind. Each field has one unit, whatever the kind. A field that the kind does not have is zero when it is
 * given out, and not read when it is taken in.
 *
 * A sink has every kind but AVS, and never peak or limited. Its current or power is the operating figure: what it needs. The flags
 * of its first object are, added up, 64 dual-role power, 32 higher capability, 16 unconstrained power, 8 USB communications, 4
 * dual-role data, and 0..3 for the current of a fast role swap. They are carried and not looked into.
 */
struct arin_flat_object {
    uint8_t kind;       /* one of arin_kind */
    uint8_t flags;      /* fixed: bits 29..23 of the word; in a built list this is twice the profile's flags */
    uint8_t peak;       /* fixed and AVS: peak current, 0..3, as the two bits of the word */
    uint8_t limited;    /* PPS: power limited, 0 or 1 */
    uint16_t volts;     /* fixed: voltage, 50 mV */
    uint16_t max;       /* battery and variable: maximum voltage, 50 mV */
    uint16_t min;       /* battery and variable: minimum voltage, 50 mV */
    uint16_t power;     /* battery: power, 250 mW */
    uint16_t current;   /* fixed and variable: current, 10 mA */
    uint16_t max100;    /* PPS: maximum voltage, 100 mV */
    uint16_t min100;    /* PPS: minimum voltage, 100 mV */
    uint16_t current50; /* PPS: current, 50 mA */
    uint16_t low;       /* AVS: current for 9 to 15 V, 10 mA */
    uint16_t high;      /* AVS: current for 15 to 20 V, 10 mA; 0 where the range ends at 15 V */
};

/* A list of objects. */
struct arin_flat_objects {
    struct arin_flat_object places[ARIN_LIST_PLACES];
    uint8_t count; /* 1..7; 0 on a refusal */
};

struct arin_flat_reading {
    struct arin_verdict verdict;
    struct arin_flat_objects list;
};

/*
 * The header of a message, field by field. Message id, roles and revision are carried and not examined, but for their width in
 * writing.
 */
struct arin_header {
    uint8_t extended;     /* bit 15: 0 or 1; 1 is an extended message, which is refused */
    uint8_t count;        /* bits 14..12: how many words follow, 0..7 */
    uint8_t id;           /* bits 11..9: message id, 0..7 */
    uint8_t power_role;   /* bit 8: 0 sink, 1 source */
    uint8_t revision;     /* bits 7..6: 0..3; 2 stands for USB PD 3.x */
    uint8_t data_role;    /* bit 5: 0 device (UFP), 1 host (DFP) */
    uint8_t message_type; /* bits 4..0: one of arin_message_type; any other of 0..31 is refused */
};

/* A message. The count of its words is the header's. Those past it come back as zero and are not read on the way in. */
struct arin_message {
    struct arin_header header;
    uint32_t words[ARIN_LIST_PLACES];
};

struct arin_message_reading {
    struct arin_verdict verdict;
    struct arin_message message;
};

struct arin_written {
    struct arin_verdict verdict;
    uint8_t length; /* how many bytes were written, 2..30; 0 on a refusal */
};

/*
 * One port. Fill in max and pps before set-up; the calls see to the rest. A byte behind pps belongs to no field: compare rows field
 * by field.
 */
struct arin_row {
    uint16_t max;     /* port maximum, half watts, 15..200 */
    uint8_t pps;      /* PPS wanted, 0 or 1 */
    uint16_t cable;   /* what it carries, 10 mA, 100..500; 0 when the port is empty */
    uint16_t present; /* power that its latest list was made for, half watts; 0 when the port is empty */
    uint16_t held;    /* power kept for it, half watts, at least 15 */
};

struct arin_remaining_power {
    struct arin_verdict verdict;
    uint16_t power; /* half watts */
};

/* ---- Lists and requests ---- */

/*
 * The default profile of a port maximum in half watts: present power the maximum, cable 300, rounded down, no PPS, no flags.
 * Refusals: 1.
 */
ARIN_MUST_USE struct arin_profiled arin_default_profile(uint16_t max);

/*
 * The list that a port with this profile advertises. No current in it is above the cable.
 * Refusals: 1, 2, 3, 4, 5, 6.
 */
ARIN_MUST_USE struct arin_listing arin_build(struct arin_profile profile);

/*
 * Whether a list keeps to the power rules of a profile: number 0 where it does. Rounding, PPS wanted and flags have to be in range,
 * and do not matter beyond that.
 * Refusals: 1, 2, 3, 4, 5; those of arin_shape; 18; 19 (the first such word).
 */
ARIN_MUST_USE struct arin_verdict arin_check(struct arin_profile profile, struct arin_words list);

/*
 * Whether these words make an SPR source list: number 0 where they do.
 * Refusals: 10; 11 (place 1); then word by word 12, 13, 15, 16, 14 (the word); 17 (the AVS word).
 */
ARIN_MUST_USE struct arin_verdict arin_shape(struct arin_words list);

/*
 * The objects of a list.
 * Refusals: those of arin_shape.
 */
ARIN_MUST_USE struct arin_flat_reading arin_read(struct arin_words list);

/*
 * The words of a list of objects.
 * Refusals: 10; 7 (the first such object); then those of arin_shape for the words made: 11 (place 1); word by word 12, 13, 15, 16,
 * 14 (the word); 17 (the AVS word). An object whose kind is none of the five has no field that could be too wide: it gets 11 where
 * it is the first, else 12 at its place.
 */
ARIN_MUST_USE struct arin_listing arin_write(struct arin_flat_objects list);

/*
 * Whether a request word (RDO) may be accepted on the list that was advertised: number 0 where it may. Its reserved bits are ignored,
 * set or clear.
 * Refusals: those of arin_shape, with their places; then 20, 23, 22, 24, 25.
 */
ARIN_MUST_USE struct arin_verdict arin_answer(struct arin_words list, uint32_t word);

/* ---- Summaries, and answers from them: arin_summarize, arin_take_request, arin_answer_summary ---- */

#include "arinduleu_summaries.h"

/* ---- Sink lists: what a sink needs. The message that they come in is none of those below: its words are handed in ---- */

/*
 * Whether these words make a sink list: number 0 where they do. No sink has AVS; bits of peak current and power limited are reserved.
 * Refusals: 10; 11 (place 1); then word by word 12, 13, 15, 16, 14 (the word).
 */
ARIN_MUST_USE struct arin_verdict arin_sink_shape(struct arin_words list);

/*
 * The objects of a sink list. Their peak and limited are zero.
 * Refusals: those of arin_sink_shape.
 */
ARIN_MUST_USE struct arin_flat_reading arin_sink_read(struct arin_words list);

/*
 * The words of a list of sink objects. Their peak and limited are not read.
 * Refusals: 10; 7 (the first such object); then those of arin_sink_shape for the words made: 11 (place 1); word by word 12, 13, 15,
 * 16, 14 (the word). An object whose kind is none of a sink's four, AVS too, has no field that could be too wide: it gets 11 where
 * it is the first, else 12 at its place.
 */
ARIN_MUST_USE struct arin_listing arin_sink_write(struct arin_flat_objects list);

/*
 * Whether a sink list keeps to the rating, in half watts, that the sink is designed for: number 0 where it does. A current is at
 * most the rating divided by the voltage and rounded down to the step of the current; a battery's power is at most the rating. The
 * voltage is that of a fixed object; of PPS from 5 V to 11, 16 or 21 V it is 9, 15 or 20 V; of all others it is the maximum. One of
 * zero sets no bound.
 * Refusals: 1 (the rating is not 1..200); those of arin_sink_shape, with their places; 43.
 */
ARIN_MUST_USE struct arin_verdict arin_sink_check(uint16_t rating, struct arin_words list);

/* ---- Messages: the header and the words as bytes, of each number the low byte first ---- */

/*
 * The message that these bytes are, all of them. The word of a Request is not judged: arin_answer and arin_request do that. The type
 * alone tells the message: a control message, whose count is 0, gets 10 where its type is 1 and 53 where it is 2.
 * Refusals: 40, 42, 41, 53; then for a Source_Capabilities those of arin_shape, with their places.
 */
ARIN_MUST_USE struct arin_message_reading arin_read_message(const uint8_t *bytes, size_t length);

/*
 * The same without the list check, so that a list whose shape fails can be looked at.
 * Refusals: 40, 42, 41, 53.
 */
ARIN_MUST_USE struct arin_message_reading arin_take_message(const uint8_t *bytes, size_t length);

/*
 * Writes a message into a buffer of so many bytes, from the first on, and answers how many it took. A buffer of
 * ARIN_LONGEST_MESSAGE bytes has room for each. What lies past the message stays as it was; on a refusal all of it does.
 * Refusals: 51, 42, 41, 53, 52; then for a Source_Capabilities those of arin_shape, with their places.
 */
ARIN_MUST_USE struct arin_written arin_write_message(uint8_t *bytes, size_t length, struct arin_message message);

/* ---- Ports that share: capacity is in half watts, from 15 times count to 1600, and the same in each call ---- */

/*
 * Empties every port: cable 0, present 0, held 15. Of the rows as lent only max and pps matter.
 * Refusals: 30, 32, then row by row 31, 4 (the row).
 */
ARIN_MUST_USE struct arin_verdict arin_set_up(struct arin_row *rows, size_t count, uint16_t capacity);

/*
 * A cable came to an empty port, with what it carries in 10 mA: for a captive lead its own rating; for any other cable 500 where its
 * marker says 5 A, else 300. Sets the present power of the port to the smaller of its maximum and what the other ports leave, and
 * answers the list to send: no current above the cable, rounded down, flags 0, with PPS where the row wants it and its present power
 * is its maximum.
 * Refusals: 30, 32, 37 (the first row at fault, or 0), 33, 3 (the cable is not 100..500), 34 (the row).
 */
ARIN_MUST_USE struct arin_listing arin_attach(struct arin_row *rows, size_t count, uint16_t capacity, uint8_t port, uint16_t cable);

/*
 * The same again for an attached port: its present power anew, and the list to send. Its cable and what it holds stay.
 * Refusals: 30, 32, 37 (the first row at fault, or 0), 33, 35 (the row).
 */
ARIN_MUST_USE struct arin_listing arin_advertise(struct arin_row *rows, size_t count, uint16_t capacity, uint8_t port);

/*
 * Judges a request word (RDO) on the port's latest list, which is made anew from its row: what was sent does not matter. On success
 * the port holds the power asked for: voltage times operating current, rounded up to a half watt, at least 15 half watts, and for
 * PPS at most its present power. On a refusal it holds what it held. 36 is given exactly when the list allows the request and the
 * other ports leave less than it would hold. Reserved bits of the word are ignored, in what is held too.
 * Refusals: 30, 32, 37 (the first row at fault, or 0), 33, 35 (the row), then 20, 23, 22, 24, 25, then 36 (the row).
 */
ARIN_MUST_USE struct arin_verdict arin_request(struct arin_row *rows, size_t count, uint16_t capacity, uint8_t port, uint32_t word);

/*
 * The cable of an attached port is gone: empties the port.
 * Refusals: 30, 32, 37 (the first row at fault, or 0), 33, 35 (the row).
 */
ARIN_MUST_USE struct arin_verdict arin_detach(struct arin_row *rows, size_t count, uint16_t capacity, uint8_t port);

/*
 * What no port holds. An empty port holds 15 half watts.
 * Refusals: 30, 32, 37 (the first row at fault, or 0).
 */
ARIN_MUST_USE struct arin_remaining_power arin_remaining(const struct arin_row *rows, size_t count, uint16_t capacity);

#ifdef __cplusplus
}
#endif

#endif

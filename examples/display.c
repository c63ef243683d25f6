/*
 * A display on a charger: it shows what a port offers, and what becomes of each request, many times a second. It keeps a summary beside the
 * list, makes it anew when the list changes, and else reads and asks nothing but the summary. The file is C and C++ at once.
 */
#include <stdio.h>

#include "arinduleu.h"

/* These two belong together: only set_list writes them. */
static struct arin_words list;
static struct arin_summary summary;

static void print_refusal(struct arin_verdict v)
{
    printf("refusal %u, place %u: %s\n", v.number, v.place, arin_refusal_text(v.number));
}

/* A list that is refused leaves an empty summary: nothing is shown, and each request is refused. */
static void set_list(struct arin_words new_list)
{
    struct arin_summarized made = arin_summarize(new_list);

    list = new_list;
    summary = made.summary;
    if (made.verdict.number != ARIN_SUCCESS)
        print_refusal(made.verdict);
}

/* The limits are in mV and mA, so a display needs no floating point. */
static void print_thousandths(unsigned figure, const char *unit)
{
    printf("%u.%02u %s", figure / 1000u, figure % 1000u / 10u, unit);
}

static void show_row(const uint16_t row[4])
{
    print_thousandths(row[ARIN_LOWEST], "V");
    if (row[ARIN_HIGHEST] != row[ARIN_LOWEST]) {
        printf(" to ");
        print_thousandths(row[ARIN_HIGHEST], "V");
    }
    if (row[ARIN_BELOW_15_V] == 0 && row[ARIN_ABOVE_15_V] == 0) {
        /* A battery is a power, which a summary does not have; and a supply of no current has nothing to show either. */
        printf("\n");
        return;
    }
    printf(", ");
    print_thousandths(row[ARIN_BELOW_15_V], "A");
    if (row[ARIN_ABOVE_15_V] != row[ARIN_BELOW_15_V] && row[ARIN_HIGHEST] > 15000) {
        printf(", above 15 V ");
        print_thousandths(row[ARIN_ABOVE_15_V], "A");
    }
    printf("\n");
}

static void show_list(void)
{
    for (int place = 1; place <= summary.count; place++) {
        printf("  %d: ", place);
        show_row(summary.rows[place - 1]);
    }
}

/* What arin_answer gives, for a list that has a summary: without a look at the list but for the kind of the object, and where that is a battery. */
static struct arin_verdict answer(uint32_t word)
{
    struct arin_flat_taken t = arin_take_request(list, word);

    if (t.verdict.number != ARIN_SUCCESS)
        return t.verdict;
    if (t.request.kind == ARIN_KIND_BATTERY)
        return arin_answer(list, word);
    return arin_answer_summary(summary, t.request);
}

static void show_request(const char *what, uint32_t word)
{
    struct arin_verdict v = answer(word);

    printf("  %s: ", what);
    if (v.number == ARIN_SUCCESS)
        printf("accept\n");
    else
        print_refusal(v);
}

/* A knob is turned through the voltages of AVS, and the current stays: one request, put together by hand, with its voltage changed. */
static void turn_knob(uint8_t position, uint16_t from, uint16_t to, uint16_t current)
{
    struct arin_flat_request request = { ARIN_KIND_AVS, position, 0, 0, 0, 0, 0, 0 };

    request.current50 = current;
    for (unsigned mv = from; mv <= to; mv += 100) {
        struct arin_verdict v;

        request.volts25 = (uint16_t)(mv / 25u);
        v = arin_answer_summary(summary, request);
        printf("  ");
        print_thousandths(mv, "V");
        printf(" at ");
        print_thousandths(current * 50u, "A");
        printf(": %s\n", arin_refusal_text(v.number));
    }
}

int main(void)
{
    /* Not ours, but read from another charger: 5 V, a battery of 50 W, and a variable supply. */
    const struct arin_words other = { { 0x0A01912C, 0x5A4190C8, 0x99019096, 0, 0, 0, 0 }, 3 };
    /* The same with 9 V first, which no list has. */
    const struct arin_words wrong = { { 0x0002D12C, 0x5A4190C8, 0x99019096, 0, 0, 0, 0 }, 3 };
    struct arin_profiled p = arin_default_profile(ARIN_WATTS(65));

    p.profile.cable = ARIN_AMPERES(5);
    p.profile.pps = 1;
    printf("a port of 65 W\n");
    set_list(arin_build(p.profile).list);
    show_list();
    show_request("20 V at 3.25 A", 0x40051545);
    show_request("20 V at 3.26 A", 0x40051946);
    show_request("AVS, 15.025 V", 0x5004B23C);
    show_request("PPS, 21 V at 3.25 A", 0x60083441);
    show_request("an object that is not there", 0x7004B12C);
    printf("a knob\n");
    turn_knob(5, 14800, 15200, 65);

    printf("another charger\n");
    set_list(other);
    show_list();
    show_request("50 W of the battery", 0x200320C8);
    show_request("51 W of the battery", 0x200330CC);
    show_request("1.5 A of the variable supply", 0x30025896);

    printf("a list that is none\n");
    set_list(wrong);
    show_list();
    show_request("1.5 A of the variable supply", 0x30025896);
    return 0;
}

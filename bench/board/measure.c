/*
 * What each call costs on a Cortex-M0: instructions, stack and software divisions. tools/board_figures.sh builds it with the library and, with
 * MODEL, with the plain model; and each of these once more with DIVISIONS, to count these, since counting costs instructions itself.
 *
 * The file `inputs` has for each call two groups, each behind its number: the seeded inputs of the benchmark, whose mean is told, and the
 * hardest, among which and the seeded ones the most is looked for. The file `answers` gets every answer to them and the rows or the buffer that it
 * leaves, which tools/board_tests.sh holds to this machine's. bytes.h has their form.
 *
 * A cost is that of a whole call as a caller has it: the arguments are handed over from where they lie, and the answer is laid down.
 */
#include <stdint.h>
#include <stdio.h>
#include <stdlib.h>

#include "arinduleu.h"
#include "bytes.h"

/* The model takes structs by pointer, as one would by hand. */
#ifdef MODEL
#define CALL(name) model_##name
#define GIVE(value) (&(value))
struct arin_profiled model_default_profile(uint16_t max);
struct arin_listing model_build(const struct arin_profile *profile);
struct arin_verdict model_check(const struct arin_profile *profile, const struct arin_words *list);
struct arin_verdict model_shape(const struct arin_words *list);
struct arin_flat_reading model_read(const struct arin_words *list);
struct arin_listing model_write(const struct arin_flat_objects *list);
struct arin_verdict model_answer(const struct arin_words *list, uint32_t word);
struct arin_summarized model_summarize(const struct arin_words *list);
struct arin_flat_taken model_take_request(const struct arin_words *list, uint32_t word);
struct arin_verdict model_answer_summary(const struct arin_summary *summary, const struct arin_flat_request *request);
struct arin_verdict model_sink_shape(const struct arin_words *list);
struct arin_flat_reading model_sink_read(const struct arin_words *list);
struct arin_listing model_sink_write(const struct arin_flat_objects *list);
struct arin_verdict model_sink_check(uint16_t rating, const struct arin_words *list);
struct arin_message_reading model_read_message(const uint8_t *bytes, size_t length);
struct arin_message_reading model_take_message(const uint8_t *bytes, size_t length);
struct arin_written model_write_message(uint8_t *bytes, size_t length, const struct arin_message *message);
struct arin_verdict model_set_up(struct arin_row *rows, size_t count, uint16_t capacity);
struct arin_listing model_attach(struct arin_row *rows, size_t count, uint16_t capacity, uint8_t port, uint16_t cable);
struct arin_listing model_advertise(struct arin_row *rows, size_t count, uint16_t capacity, uint8_t port);
struct arin_verdict model_request(struct arin_row *rows, size_t count, uint16_t capacity, uint8_t port, uint32_t word);
struct arin_verdict model_detach(struct arin_row *rows, size_t count, uint16_t capacity, uint8_t port);
struct arin_remaining_power model_remaining(const struct arin_row *rows, size_t count, uint16_t capacity);
#else
#define CALL(name) arin_##name
#define GIVE(value) (value)
#endif

/* ---- Divisions: the linker leads them through here ---- */

static uint32_t divisions;

#ifdef DIVISIONS
uint32_t __real___aeabi_uidiv(uint32_t numerator, uint32_t divisor);
uint64_t __real___aeabi_uidivmod(uint32_t numerator, uint32_t divisor);

uint32_t __wrap___aeabi_uidiv(uint32_t numerator, uint32_t divisor)
{
    divisions++;
    return __real___aeabi_uidiv(numerator, divisor);
}

/* Quotient and remainder come in two registers, as the two halves of a 64-bit figure. */
uint64_t __wrap___aeabi_uidivmod(uint32_t numerator, uint32_t divisor)
{
    divisions++;
    return __real___aeabi_uidivmod(numerator, divisor);
}
#endif

/* ---- The calls, in the order in which the benchmark numbers them ---- */

/*
 * SysTick, 24 bits, counting down. The emulator is told that an instruction takes 1024 ns and the timer runs at 16 MHz, so 16.384 ticks are one
 * instruction.
 */
static volatile uint32_t *const timer_control = (uint32_t *)0xE000E010;
static volatile uint32_t *const timer_reload = (uint32_t *)0xE000E014;
static volatile uint32_t *const timer = (uint32_t *)0xE000E018;
static uint32_t stopped;

/*
 * The answer is laid down in a variable of the caller's own, as firmware has it. The clock stops before it is kept: that is no part of the
 * call.
 */
#define ASK(kept, call)                                 \
    do {                                                \
        __typeof__(kept) answer = call;                 \
        __asm__ volatile("" : : "r"(&answer) : "memory"); \
        stopped = *timer;                               \
        kept = answer;                                  \
    } while (0)

static void no_call(void)
{
    stopped = *timer;
}

static void hundred_instructions(void)
{
    __asm__ volatile(".rept 100\n nop\n .endr");
    stopped = *timer;
}

static void call_default_profile(void)
{
    ASK(profiled, CALL(default_profile)(max));
}

static void call_build(void)
{
    ASK(listing, CALL(build)(GIVE(profile)));
}

static void call_check(void)
{
    ASK(verdict, CALL(check)(GIVE(profile), GIVE(list)));
}

static void call_shape(void)
{
    ASK(verdict, CALL(shape)(GIVE(list)));
}

static void call_read(void)
{
    ASK(reading, CALL(read)(GIVE(list)));
}

static void call_write(void)
{
    ASK(listing, CALL(write)(GIVE(objects)));
}

static void call_answer(void)
{
    ASK(verdict, CALL(answer)(GIVE(list), word));
}

static void call_summarize(void)
{
    ASK(summarized, CALL(summarize)(GIVE(list)));
}

static void call_take_request(void)
{
    ASK(taken, CALL(take_request)(GIVE(list), word));
}

static void call_answer_summary(void)
{
    ASK(verdict, CALL(answer_summary)(GIVE(summary), GIVE(request)));
}

static void call_sink_shape(void)
{
    ASK(verdict, CALL(sink_shape)(GIVE(list)));
}

static void call_sink_read(void)
{
    ASK(reading, CALL(sink_read)(GIVE(list)));
}

static void call_sink_write(void)
{
    ASK(listing, CALL(sink_write)(GIVE(objects)));
}

static void call_sink_check(void)
{
    ASK(verdict, CALL(sink_check)(max, GIVE(list)));
}

static void call_read_message(void)
{
    ASK(message_reading, CALL(read_message)(lent, length));
}

static void call_take_message(void)
{
    ASK(message_reading, CALL(take_message)(lent, length));
}

static void call_write_message(void)
{
    ASK(written, CALL(write_message)(lent, length, GIVE(message)));
}

static void call_set_up(void)
{
    ASK(verdict, CALL(set_up)(rows, count, capacity));
}

static void call_attach(void)
{
    ASK(listing, CALL(attach)(rows, count, capacity, port, cable));
}

static void call_advertise(void)
{
    ASK(listing, CALL(advertise)(rows, count, capacity, port));
}

static void call_request(void)
{
    ASK(verdict, CALL(request)(rows, count, capacity, port, word));
}

static void call_detach(void)
{
    ASK(verdict, CALL(detach)(rows, count, capacity, port));
}

static void call_remaining(void)
{
    ASK(remaining, CALL(remaining)(rows, count, capacity));
}

static const struct {
    const char *name;
    void (*take)(void);
    void (*call)(void);
    void (*give)(void);
} calls[] = {
    { "arin_default_profile", take_max, call_default_profile, give_profiled },
    { "arin_build", take_profile, call_build, give_listing },
    { "arin_check", take_profile_and_list, call_check, give_verdict },
    { "arin_shape", take_list, call_shape, give_verdict },
    { "arin_read", take_list, call_read, give_reading },
    { "arin_write", take_objects, call_write, give_listing },
    { "arin_answer", take_list_and_word, call_answer, give_verdict },
    { "arin_summarize", take_list, call_summarize, give_summarized },
    { "arin_take_request", take_list_and_word, call_take_request, give_taken },
    { "arin_answer_summary", take_summary_and_request, call_answer_summary, give_verdict },
    { "arin_sink_shape", take_list, call_sink_shape, give_verdict },
    { "arin_sink_read", take_list, call_sink_read, give_reading },
    { "arin_sink_write", take_objects, call_sink_write, give_listing },
    { "arin_sink_check", take_rating_and_list, call_sink_check, give_verdict },
    { "arin_read_message", take_bytes, call_read_message, give_message_reading },
    { "arin_take_message", take_bytes, call_take_message, give_message_reading },
    { "arin_write_message", take_message_and_room, call_write_message, give_written_and_bytes },
    { "arin_set_up", take_turn, call_set_up, give_verdict_and_rows },
    { "arin_attach", take_turn, call_attach, give_listing_and_rows },
    { "arin_advertise", take_turn, call_advertise, give_listing_and_rows },
    { "arin_request", take_turn, call_request, give_verdict_and_rows },
    { "arin_detach", take_turn, call_detach, give_verdict_and_rows },
    { "arin_remaining", take_turn, call_remaining, give_remaining_and_rows },
};

enum { CALLS = sizeof calls / sizeof calls[0] };

/* ---- Measuring ---- */

struct cost {
    uint32_t instructions, stack;
};

/* The words below the stack pointer are painted, and what of the paint is gone was used. */
static __attribute__((noinline)) struct cost measure(void (*call)(void))
{
    enum { PAINTED = 1000, PAINT = 0x5AA55AA5 };
    volatile uint32_t *top;
    uint32_t started, used;
    struct cost cost;

    __asm__ volatile("mov %0, sp" : "=r"(top));
    for (int i = 1; i <= PAINTED; i++)
        top[-i] = PAINT;
    started = *timer;
    call();
    for (used = PAINTED; used > 0 && top[-(int)used] == PAINT; used--)
        ;
    cost.instructions = (((started - stopped) & 0xFFFFFF) * 1000 + 8192) / 16384;
    cost.stack = 4 * used;
    return cost;
}

static FILE *opened(const char *name, const char *mode)
{
    FILE *file = fopen(name, mode);

    if (file == NULL) {
        printf("measure: the file %s cannot be opened\n", name);
        exit(1);
    }
    return file;
}

static void print_figures(const uint32_t figures[7])
{
    for (int i = 0; i < 7; i++)
        printf(" %lu", (unsigned long)figures[i]);
    printf("\n");
}

/*
 * Prints how many calls were made, how many of them on seeded inputs, and the instructions and divisions of these together; then the most
 * instructions, bytes of stack and divisions of one call.
 */
static void measure_call(int n, uint32_t itself)
{
    uint32_t made = 0, seeded = 0, instructions = 0, all_divisions = 0;
    uint32_t most_instructions = 0, most_stack = 0, most_divisions = 0;

    for (int group = 0; group < 2; group++) {
        uint32_t count = take(2);

        for (uint32_t i = 0; i < count; i++) {
            struct cost cost;

            calls[n].take();
            divisions = 0;
            cost = measure(calls[n].call);
            cost.instructions -= itself;
            calls[n].give();
            made++;
            if (cost.instructions > most_instructions)
                most_instructions = cost.instructions;
            if (cost.stack > most_stack)
                most_stack = cost.stack;
            if (divisions > most_divisions)
                most_divisions = divisions;
            if (group == 0) {
                seeded++;
                instructions += cost.instructions;
                all_divisions += divisions;
            }
        }
    }
    printf("%s", calls[n].name);
    print_figures((uint32_t[]){ made, seeded, instructions, all_divisions, most_instructions, most_stack, most_divisions });
}

#ifdef DIVISIONS
/*
 * The rule check of seven objects, the most that a list has: 5, 9, 15 and 20 V, AVS, 15 V Prog and 20 V Prog. `steps` are added to the four that
 * have 3 A where the cable carries it, at 5, 9 and 15 V and of 15 V Prog, and to the first current of AVS, which is that of 15 V. Prints the count,
 * the refusal and the divisions: 7 and 0, and of divisions no more than one for each of the six that are not AVS.
 */
static void count_divisions_of_seven(const char *name, uint16_t carries, uint32_t steps)
{
    profile = (struct arin_profile){ .max = 110, .present = 110, .cable = carries, .pps = 1 };
    list = CALL(build)(GIVE(profile)).list;
    for (int i = 0; i < 3; i++)
        list.words[i] += steps;
    list.words[4] += steps << 10;
    list.words[5] += steps;
    divisions = 0;
    verdict = CALL(check)(GIVE(profile), GIVE(list));
    printf("seven %s %d %d %lu\n", name, list.count, verdict.number, (unsigned long)divisions);
}
#endif

int main(void)
{
    uint32_t itself;

    *timer_reload = 0xFFFFFF;
    *timer = 0;
    *timer_control = 5;
    inputs = opened("inputs", "rb");
    answers = opened("answers", "wb");
    itself = measure(no_call).instructions;
    printf("hundred %lu\n", (unsigned long)(measure(hundred_instructions).instructions - itself));
    for (int n = 0; n < CALLS; n++)
        measure_call(n, itself);
#ifdef DIVISIONS
    count_divisions_of_seven("built", ARIN_AMPERES(5), 0);
    count_divisions_of_seven("built_2_A", ARIN_AMPERES(2), 0);
    count_divisions_of_seven("built_4_A", ARIN_AMPERES(4), 0);
    count_divisions_of_seven("past_3_A", ARIN_AMPERES(5), 1);
    count_divisions_of_seven("past_3_A_of_4_A", ARIN_AMPERES(4), 1);
#endif
    return fclose(answers) == 0 ? 0 : 1;
}

/*
 * The inputs of the calls and their answers as bytes, field by field, low byte first, for measure.c. The other side is
 * rust/benches/calls/bytes.rs.
 */
#ifndef BYTES_H
#define BYTES_H

#include <stdint.h>
#include <stdio.h>
#include <stdlib.h>

#include "arinduleu.h"

static FILE *inputs, *answers;

static uint32_t take(int bytes)
{
    uint32_t figure = 0;

    for (int i = 0; i < bytes; i++) {
        int c = fgetc(inputs);

        if (c == EOF) {
            printf("measure: the inputs end too soon\n");
            exit(1);
        }
        figure |= (uint32_t)c << (8 * i);
    }
    return figure;
}

static void give(uint32_t figure, int bytes)
{
    for (int i = 0; i < bytes; i++)
        fputc((int)(figure >> (8 * i) & 0xFF), answers);
}

/* What is handed over. The objects lie as a caller's own would, on the stack. */
static uint16_t max;
static struct arin_profile profile;
static struct arin_words list;
static _Alignas(4) struct arin_flat_objects objects;
static _Alignas(4) struct arin_summary summary;
static _Alignas(4) struct arin_flat_request request;
static struct arin_row rows[ARIN_MOST_ROWS + 1];
static uint8_t count, port;
static uint16_t capacity, cable;
static uint32_t word;
static struct arin_message message;
static uint8_t lent[ARIN_LONGEST_MESSAGE + 1];
static uint8_t length;

/* What comes back. */
static struct arin_verdict verdict;
static struct arin_profiled profiled;
static struct arin_listing listing;
static struct arin_flat_reading reading;
static struct arin_summarized summarized;
static struct arin_flat_taken taken;
static struct arin_message_reading message_reading;
static struct arin_written written;
static struct arin_remaining_power remaining;

static void take_max(void)
{
    max = (uint16_t)take(2);
}

static void take_profile(void)
{
    profile.max = (uint16_t)take(2);
    profile.present = (uint16_t)take(2);
    profile.cable = (uint16_t)take(2);
    profile.rounding = (uint8_t)take(1);
    profile.pps = (uint8_t)take(1);
    profile.flags = (uint8_t)take(1);
}

static void take_list(void)
{
    for (int i = 0; i < ARIN_LIST_PLACES; i++)
        list.words[i] = take(4);
    list.count = (uint8_t)take(1);
}

static void take_profile_and_list(void)
{
    take_profile();
    take_list();
}

/* The rating is handed over where a port maximum is. */
static void take_rating_and_list(void)
{
    take_max();
    take_list();
}

static void take_list_and_word(void)
{
    take_list();
    word = take(4);
}

static void take_objects(void)
{
    for (int i = 0; i < ARIN_LIST_PLACES; i++) {
        struct arin_flat_object *o = &objects.places[i];

        o->kind = (uint8_t)take(1);
        o->flags = (uint8_t)take(1);
        o->peak = (uint8_t)take(1);
        o->limited = (uint8_t)take(1);
        o->volts = (uint16_t)take(2);
        o->max = (uint16_t)take(2);
        o->min = (uint16_t)take(2);
        o->power = (uint16_t)take(2);
        o->current = (uint16_t)take(2);
        o->max100 = (uint16_t)take(2);
        o->min100 = (uint16_t)take(2);
        o->current50 = (uint16_t)take(2);
        o->low = (uint16_t)take(2);
        o->high = (uint16_t)take(2);
    }
    objects.count = (uint8_t)take(1);
}

static void take_summary_and_request(void)
{
    summary.count = (uint8_t)take(1);
    for (int i = 0; i < ARIN_LIST_PLACES; i++) {
        for (int limit = ARIN_LOWEST; limit <= ARIN_ABOVE_15_V; limit++)
            summary.rows[i][limit] = (uint16_t)take(2);
    }
    request.kind = (uint8_t)take(1);
    request.position = (uint8_t)take(1);
    request.mismatch = (uint8_t)take(1);
    request.operating = (uint16_t)take(2);
    request.maximum = (uint16_t)take(2);
    request.volts20 = (uint16_t)take(2);
    request.volts25 = (uint16_t)take(2);
    request.current50 = (uint16_t)take(2);
}

static void take_bytes(void)
{
    for (size_t i = 0; i < sizeof lent; i++)
        lent[i] = (uint8_t)take(1);
    length = (uint8_t)take(1);
}

/* The buffer is filled, so that the answers show what was written. */
static void take_message_and_room(void)
{
    message.header.extended = (uint8_t)take(1);
    message.header.count = (uint8_t)take(1);
    message.header.id = (uint8_t)take(1);
    message.header.power_role = (uint8_t)take(1);
    message.header.revision = (uint8_t)take(1);
    message.header.data_role = (uint8_t)take(1);
    message.header.message_type = (uint8_t)take(1);
    for (int i = 0; i < ARIN_LIST_PLACES; i++)
        message.words[i] = take(4);
    length = (uint8_t)take(1);
    for (size_t i = 0; i < sizeof lent; i++)
        lent[i] = 0xAA;
}

static void take_turn(void)
{
    for (int i = 0; i <= ARIN_MOST_ROWS; i++) {
        rows[i].max = (uint16_t)take(2);
        rows[i].pps = (uint8_t)take(1);
        rows[i].cable = (uint16_t)take(2);
        rows[i].present = (uint16_t)take(2);
        rows[i].held = (uint16_t)take(2);
    }
    count = (uint8_t)take(1);
    capacity = (uint16_t)take(2);
    port = (uint8_t)take(1);
    cable = (uint16_t)take(2);
    word = take(4);
}

static void give_verdict_of(struct arin_verdict v)
{
    give(v.number, 1);
    give(v.place, 1);
}

static void give_verdict(void)
{
    give_verdict_of(verdict);
}

static void give_profiled(void)
{
    give_verdict_of(profiled.verdict);
    give(profiled.profile.max, 2);
    give(profiled.profile.present, 2);
    give(profiled.profile.cable, 2);
    give(profiled.profile.rounding, 1);
    give(profiled.profile.pps, 1);
    give(profiled.profile.flags, 1);
}

static void give_listing(void)
{
    give_verdict_of(listing.verdict);
    for (int i = 0; i < ARIN_LIST_PLACES; i++)
        give(listing.list.words[i], 4);
    give(listing.list.count, 1);
}

static void give_reading(void)
{
    give_verdict_of(reading.verdict);
    for (int i = 0; i < ARIN_LIST_PLACES; i++) {
        struct arin_flat_object o = reading.list.places[i];

        give(o.kind, 1);
        give(o.flags, 1);
        give(o.peak, 1);
        give(o.limited, 1);
        give(o.volts, 2);
        give(o.max, 2);
        give(o.min, 2);
        give(o.power, 2);
        give(o.current, 2);
        give(o.max100, 2);
        give(o.min100, 2);
        give(o.current50, 2);
        give(o.low, 2);
        give(o.high, 2);
    }
    give(reading.list.count, 1);
}

static void give_summarized(void)
{
    give_verdict_of(summarized.verdict);
    give(summarized.summary.count, 1);
    for (int i = 0; i < ARIN_LIST_PLACES; i++) {
        for (int limit = ARIN_LOWEST; limit <= ARIN_ABOVE_15_V; limit++)
            give(summarized.summary.rows[i][limit], 2);
    }
}

static void give_taken(void)
{
    struct arin_flat_request r = taken.request;

    give_verdict_of(taken.verdict);
    give(r.kind, 1);
    give(r.position, 1);
    give(r.mismatch, 1);
    give(r.operating, 2);
    give(r.maximum, 2);
    give(r.volts20, 2);
    give(r.volts25, 2);
    give(r.current50, 2);
}

static void give_message_reading(void)
{
    struct arin_header h = message_reading.message.header;

    give_verdict_of(message_reading.verdict);
    give(h.extended, 1);
    give(h.count, 1);
    give(h.id, 1);
    give(h.power_role, 1);
    give(h.revision, 1);
    give(h.data_role, 1);
    give(h.message_type, 1);
    for (int i = 0; i < ARIN_LIST_PLACES; i++)
        give(message_reading.message.words[i], 4);
}

static void give_written_and_bytes(void)
{
    give_verdict_of(written.verdict);
    give(written.length, 1);
    for (size_t i = 0; i < sizeof lent; i++)
        give(lent[i], 1);
}

static void give_rows(void)
{
    for (int i = 0; i <= ARIN_MOST_ROWS; i++) {
        give(rows[i].max, 2);
        give(rows[i].pps, 1);
        give(rows[i].cable, 2);
        give(rows[i].present, 2);
        give(rows[i].held, 2);
    }
}

static void give_verdict_and_rows(void)
{
    give_verdict();
    give_rows();
}

static void give_listing_and_rows(void)
{
    give_listing();
    give_rows();
}

static void give_remaining_and_rows(void)
{
    give_verdict_of(remaining.verdict);
    give(remaining.power, 2);
    give_rows();
}

#endif

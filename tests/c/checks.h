/*
 * What the programs of checks share: counting them, making lists, and comparing verdicts. It is C and C++ at once, as they are.
 */
#ifndef CHECKS_H
#define CHECKS_H

#include <stdio.h>

#include "arinduleu.h"

static int passed, failed;

/* Only the first wrong line is printed. */
static void check(int right, int line, const char *text)
{
    if (right)
        passed++;
    else if (failed++ == 0)
        printf("line %d is wrong: %s\n", line, text);
}

#define CHECK(right) check((right), __LINE__, #right)

/* The last line of a program, and what it ends with. */
static int told(const char *who)
{
    if (failed != 0)
        return 1;
    printf("%s: %d passed, 0 failed\n", who, passed);
    return 0;
}

/* ---- Making ---- */

/* The words past the count are no objects: a call that read them would refuse. */
static struct arin_words words(uint8_t count, uint32_t a, uint32_t b, uint32_t c, uint32_t d, uint32_t e, uint32_t f)
{
    const uint32_t given[] = { a, b, c, d, e, f };
    struct arin_words list;
    int i;

    for (i = 0; i < ARIN_LIST_PLACES; i++)
        list.words[i] = i < count && i < 6 ? given[i] : 0xFFFFFFFF;
    list.count = count;
    return list;
}

static struct arin_words after_5_v(uint32_t second)
{
    return words(2, 0x0001912C, second, 0, 0, 0, 0);
}

/* ---- Comparing ---- */

static int is(struct arin_verdict v, int number, int place)
{
    return v.number == number && v.place == place;
}

#endif

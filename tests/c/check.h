/* What the C tests share: a check that names its line where it fails, the count of checks, and policies. */
#ifndef CHECK_H
#define CHECK_H

#include "separation_kernel.h"

#include <stdarg.h>
#include <stdio.h>
#include <string.h>

#define DEMONSTRATION                                                                                        \
    "segment\t0\t0\t64\nsegment\t1\t64\t44\nsegment\t2\t128\t64\nsegment\t3\t192\t44\nsegment\t4\t256\t16\n" \
    "partition\t0\t0\t1\npartition\t1\t2\t3\n"                                                               \
    "right\t0\t0\tr\nright\t0\t4\tw\nright\t1\t2\tr\nright\t1\t4\tr\n"                                       \
    "flow\t0\t1\nflow\t0\t4\nflow\t1\t4\nflow\t2\t3\nflow\t4\t3\n"                                           \
    "slot\t0\t3\nslot\t1\t2\n"

static unsigned checks, failures;

static inline void check_at(int line, const char *what, int holds)
{
    checks++;
    if (!holds) {
        failures++;
        printf("line %d: not so: %s\n", line, what);
    }
}

#define CHECK(holds) check_at(__LINE__, #holds, (holds) ? 1 : 0)

/* What the checks since the last report say. */
static inline void report(const char *what)
{
    printf("%s: %u checks\n", what, checks);
    checks = 0;
}

static inline struct sk_read_result read_text(const char *text)
{
    return sk_read((const uint8_t *)text, strlen(text));
}

static char made[SK_TEXT_BYTES + 2];

/* Adds to the text that is being made. */
static inline void add(const char *form, ...)
{
    size_t used = strlen(made);
    va_list numbers;

    va_start(numbers, form);
    vsnprintf(made + used, sizeof made - used, form, numbers);
    va_end(numbers);
}

/* A policy of so many segments, partitions and slots, the first segment and the slots so long; each partition has the first segment as code. */
static inline struct sk_read_result policy_of(int segments, int partitions, int slots, int length, int ticks)
{
    made[0] = 0;
    add("segment\t0\t0\t%d\n", length);
    for (int s = 1; s < segments; s++)
        add("segment\t%d\t%d\t44\n", s, 4096 + 44 * s);
    for (int p = 0; p < partitions; p++)
        add("partition\t%d\t0\t%d\n", p, p + 1);
    for (int p = 0; p < partitions && p < SK_MAX_PARTITIONS; p++)
        add("right\t%d\t0\tr\n", p);
    for (int p = 0; p < partitions && p < SK_MAX_PARTITIONS; p++)
        add("flow\t0\t%d\n", p + 1);
    for (int i = 0; i < slots; i++)
        add("slot\t0\t%d\n", ticks);
    return read_text(made);
}

#endif

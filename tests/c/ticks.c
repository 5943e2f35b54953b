/* How many instructions a single tick takes: Runs of 0, 1, 2 .. ticks from one memory of random programs, counted one instruction at a time by the
 * processor's trap flag; a tick is what one Run takes more than the one before. A search and no bound: it says that nothing over MOST was found. With a
 * number it tries so many memories (0.15 seconds each; 120 were tried for MOST) and prints the most that it found. */
#define _POSIX_C_SOURCE 200809L
#include "check.h"

#include <signal.h>
#include <stdlib.h>

#define MOST 128
#define MEMORIES 8
#define TICKS 6
#define PARTITIONS 2

static uint8_t memory[SK_MEMORY_BYTES], before[SK_MEMORY_BYTES];
static struct sk_policy policy;
static volatile unsigned long steps;

static void on_trap(int number)
{
    (void)number;
    steps++;
}

/* Sets or clears the trap flag. What lies below the stack pointer may be in use, so it is left alone. */
#define TRAP(change) __asm__ volatile("lea -128(%%rsp), %%rsp\n pushfq\n" change " $0x100, (%%rsp)\n popfq\n lea 128(%%rsp), %%rsp\n" ::: "memory", "cc")

/* The instructions of a Run from slot 0, those of the call around it included. */
static unsigned long count_run(uint32_t ticks)
{
    struct sk_place place = {0, 0, 0};
    struct sk_run_result run;

    memcpy(memory, before, sizeof memory);
    steps = 0;
    TRAP("orq");
    run = sk_run(policy, memory, sizeof memory, place, ticks);
    TRAP("xorq");
    CHECK(run.number == SK_DONE && run.place.count == ticks);
    return steps;
}

static uint32_t random_state = 1;

static uint32_t some(uint32_t below)
{
    random_state = random_state * 1664525u + 1013904223u;
    return (random_state >> 8) % below;
}

/* Random instructions, most of them with good operands, and a save segment that may be ready or waiting, in a handler or not, with lines pended. */
static void fill(uint32_t partition)
{
    uint8_t *save = before + policy.base[policy.save[partition]], *code = before + policy.base[partition];

    for (int i = 0; i < 64; i++, code += 4) {
        code[0] = (uint8_t)some(17);
        code[1] = (uint8_t)some(8);
        code[2] = (uint8_t)some(8);
        code[3] = (uint8_t)(code[0] == 9 ? 0 : code[0] < 7 ? some(8) : some(2) ? partition : 2 * PARTITIONS + partition);
    }
    for (int r = 0; r < SK_REGISTERS; r++)
        save[SK_SAVE_REGISTERS + 4 * r] = (uint8_t)some(253);
    save[SK_SAVE_COUNTER] = (uint8_t)(4 * some(63));
    save[SK_SAVE_STATE] = some(4) ? SK_STATE_READY : SK_STATE_WAITING;
    save[SK_SAVE_PENDED] = (uint8_t)some(256);
    save[SK_SAVE_ENABLED] = (uint8_t)(some(3) ? 0 : some(256));
    save[SK_SAVE_RETURN] = 8;
    save[SK_SAVE_HANDLER] = 16;
    save[SK_SAVE_IN_HANDLER] = (uint8_t)some(2);
}

/* Two partitions in slots of one tick, each with code, a save segment and data of its own, which it reads and writes. */
static void make_policy(void)
{
    for (int s = 0; s < 3 * PARTITIONS; s++)
        add("segment\t%d\t%d\t%d\n", s, 256 * s, s / PARTITIONS == 1 ? 44 : 256);
    add("partition\t0\t0\t2\npartition\t1\t1\t3\nright\t0\t0\trw\nright\t0\t4\trw\nright\t1\t1\trw\nright\t1\t5\trw\n");
    add("flow\t0\t2\nflow\t0\t4\nflow\t1\t3\nflow\t1\t5\nflow\t2\t0\nflow\t2\t4\nflow\t3\t1\nflow\t3\t5\nflow\t4\t0\nflow\t4\t2\nflow\t5\t1\nflow\t5\t3\n");
    add("slot\t0\t1\nslot\t1\t1\n");
    policy = read_text(made).policy;
    CHECK(sk_policy_sound(&policy) == 1);
}

int main(int count, char **words)
{
    long memories = count > 1 ? strtol(words[1], NULL, 10) : MEMORIES;
    unsigned long most = 0;
    struct sigaction action;

    memset(&action, 0, sizeof action);
    action.sa_handler = on_trap;
    CHECK(sigaction(SIGTRAP, &action, NULL) == 0);
    make_policy();
    for (long m = 0; m < memories; m++) {
        unsigned long last;

        for (uint32_t p = 0; p < PARTITIONS; p++)
            fill(p);
        last = count_run(0);
        for (uint32_t n = 1; n <= TICKS; n++) {
            unsigned long taken = count_run(n);

            most = taken - last > most && taken > last ? taken - last : most;
            last = taken;
        }
    }
    if (count > 1)
        printf("most instructions of one tick: %lu\n", most);
    CHECK(most > 30 && most <= MOST);
    report("single ticks");
    return failures != 0;
}

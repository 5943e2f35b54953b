/* A loop that runs the kernel, and an interrupt handler beside it: the handler only sets a flag, and the loop pends the line between two Runs. The signal
 * stands for the hardware; a program counts how often line 2 came.
 *
 *     cc -std=c99 -Iinclude examples/c/interrupts.c target/staticlib/libboundary.a -o interrupts */
#include "separation_kernel.h"

#include <signal.h>
#include <stdio.h>
#include <string.h>

static const char text[] = "segment\t0\t0\t64\nsegment\t1\t64\t44\npartition\t0\t0\t1\nright\t0\t0\tr\nflow\t0\t1\nslot\t0\t10\n";

/* r1 = 1; listen to line 2 with the handler at 16; wait; jump to 8. The handler: r0 = r0 + r1; back. */
static const uint8_t program[] = {1, 1, 1, 0, 11, 4, 16, 0, 10, 0, 0, 0, 9, 1, 8, 0, 2, 0, 0, 1, 12, 0, 0, 0};

static uint8_t memory[SK_MEMORY_BYTES];

/* One flag for each line: a handler sets one, and nobody needs to change a single bit of it. */
static volatile sig_atomic_t asked[SK_LINES];

static void on_signal(int number)
{
    signal(number, on_signal);
    asked[2] = 1;
}

/* Pends what was asked for. The flag is cleared first: what is asked for after that is pended in the next round, and nothing is lost. */
static void pend_asked(const struct sk_policy *policy)
{
    for (uint32_t line = 0; line < SK_LINES; line++)
        if (asked[line]) {
            asked[line] = 0;
            printf("line %u pended: %s\n", (unsigned)line, sk_refusal_text(sk_policy_pend(policy, memory, sizeof memory, 0, line)));
        }
}

int main(void)
{
    struct sk_read_result read = sk_read((const uint8_t *)text, sizeof text - 1);
    if (read.number != SK_DONE || !sk_version_fits())
        return 1;
    memcpy(memory, program, sizeof program);
    struct sk_run_result run = sk_policy_start(&read.policy, memory, sizeof memory);
    signal(SIGINT, on_signal);

    for (unsigned round = 0; round < 6; round++) {
        if (round % 2 == 1)
            raise(SIGINT);
        pend_asked(&read.policy);
        run = sk_policy_run(&read.policy, memory, sizeof memory, run.place, 10);
        const uint8_t *save = sk_save(&read.policy, memory, 0);
        printf("after %u ticks: r0 %u, %s\n", (unsigned)run.place.count, (unsigned)sk_save_register(save, 0), sk_state_text(sk_save_state(save)));
    }
    return run.number == SK_DONE ? 0 : 1;
}

/* Reads a policy (the demonstration, or the file named), asks who can reach the last partition and how long each may be silent, starts, puts a program
 * of three instructions into segment 0, pends a line, runs, and prints what came of it. Ends with 0; 1 if the policy is refused; 2 if a file can't be read;
 * 3 if header and archive are not of one version.
 *
 *     cc -std=c99 -Iinclude examples/c/example.c target/staticlib/libboundary.a -o example */
#include "separation_kernel.h"

#include <stdio.h>
#include <stdlib.h>
#include <string.h>

static const char demonstration[] =
    "segment\t0\t0\t64\nsegment\t1\t64\t44\nsegment\t2\t128\t64\nsegment\t3\t192\t44\nsegment\t4\t256\t16\n"
    "partition\t0\t0\t1\npartition\t1\t2\t3\n"
    "right\t0\t0\tr\nright\t0\t4\tw\nright\t1\t2\tr\nright\t1\t4\tr\n"
    "flow\t0\t1\nflow\t0\t4\nflow\t1\t4\nflow\t2\t3\nflow\t4\t3\n"
    "slot\t0\t3\nslot\t1\t2\n";

/* r0 = 65; store it at offset r1 (0) of segment 4; halt. */
static const uint8_t program[] = {0x01, 0x00, 0x41, 0x00, 0x08, 0x00, 0x01, 0x04, 0x00, 0x00, 0x00, 0x00};

static uint8_t memory[SK_MEMORY_BYTES];

static void print_save(const struct sk_policy *policy, unsigned partition)
{
    const uint8_t *save = sk_save(policy, memory, partition);
    printf("partition %u: counter %u, state %u, fault %u, pended lines %u\n", partition, (unsigned)sk_save_counter(save), (unsigned)sk_save_state(save),
           (unsigned)sk_save_fault(save), save[SK_SAVE_PENDED]);
}

/* The same in words, for each partition. */
static void print_states(const struct sk_policy *policy)
{
    for (unsigned p = 0; p < policy->partitions; p++) {
        const uint8_t *save = sk_save(policy, memory, p);
        printf("partition %u: r0 %lu, %s, %s\n", p, (unsigned long)sk_save_register(save, 0), sk_state_text(sk_save_state(save)),
               sk_fault_text(sk_save_fault(save)));
    }
}

static void print_masks(const struct sk_policy *policy, unsigned partition)
{
    printf("partition %u: read mask %lu, write mask %lu\n", partition, (unsigned long)policy->reads[partition], (unsigned long)policy->writes[partition]);
}

/* The segments whose bit stands in a mask. */
static void print_segments(const char *what, unsigned segment, uint32_t mask)
{
    printf("segments that %s segment %u:", what, segment);
    for (unsigned s = 0; s < SK_MAX_SEGMENTS; s++)
        if (mask >> s & 1)
            printf(" %u", s);
    printf("\n");
}

/* The lines into a segment, the chains into it, and whether one of these begins at segment 0. */
static void print_sources(const struct sk_policy *policy, unsigned segment)
{
    struct sk_reach_result reach = sk_policy_reach(policy);
    struct sk_answer answer = sk_policy_can_reach(policy, 0, segment);

    print_segments("flow into", segment, policy->sources[segment]);
    print_segments("can reach", segment, reach.sources[segment]);
    printf("can segment 0 reach segment %u: %u, %s\n", segment, (unsigned)answer.number, answer.yes ? "yes" : "no");
}

/* Each partition's ticks in one round, and the most ticks in a row in which it isn't current. */
static void print_sheet(const struct sk_policy *policy)
{
    struct sk_sheet_result sheet = sk_policy_sheet(policy);

    printf("schedule sheet: %u\n", (unsigned)sheet.number);
    for (unsigned p = 0; p < policy->partitions; p++)
        printf("partition %u: %u ticks in one round, longest silence %u\n", p, (unsigned)sheet.ticks[p], (unsigned)sheet.silence[p]);
}

/* One byte more than a text may have, so that a longer file is refused as such. */
static uint8_t text[SK_TEXT_BYTES + 1];

/* The demonstration, or the file named, and its length; a file that can't be read ends the program. */
static size_t load(const char *name)
{
    if (name == NULL) {
        memcpy(text, demonstration, sizeof demonstration - 1);
        return sizeof demonstration - 1;
    }
    FILE *file = fopen(name, "rb");
    size_t length = file == NULL ? 0 : fread(text, 1, sizeof text, file);
    if (file == NULL || ferror(file)) {
        perror(name);
        exit(2);
    }
    fclose(file);
    return length;
}

/* What Start or Run answered. */
static void print_run(const char *call, struct sk_run_result run)
{
    printf("%s: %u, slot %u, used %u, count %u\n", call, (unsigned)run.number, (unsigned)run.place.slot, (unsigned)run.place.used, (unsigned)run.place.count);
}

/* A call that is refused, in words. */
static void print_refused(const char *call, uint32_t number)
{
    printf("%s: refused, %s\n", call, sk_refusal_text(number));
}

static void run_program(const struct sk_policy *policy)
{
    struct sk_run_result run = sk_policy_start(policy, memory, sizeof memory);
    print_run("start", run);

    size_t room = policy->size[0] < sizeof program ? policy->size[0] : sizeof program;
    memcpy(memory + policy->base[0], program, room);
    uint32_t pended = sk_policy_pend(policy, memory, sizeof memory, 0, 2);
    printf("pend line 2 for partition 0: %u\n", (unsigned)pended);
    uint32_t above = sk_policy_pend(policy, memory, sizeof memory, 0, SK_LINES);
    printf("pend line 8 for partition 0: %u\n", (unsigned)above);

    run = sk_policy_run(policy, memory, sizeof memory, run.place, 3);
    print_run("run 3 ticks", run);
    print_save(policy, 0);
    if (policy->segments > 4)
        printf("first byte of segment 4: %u\n", memory[policy->base[4]]);

    struct sk_run_result refused = sk_policy_run(policy, memory, sizeof memory, run.place, SK_MAX_RUN_TICKS + 1);
    print_run("run 10001 ticks", refused);
    run = sk_policy_run(policy, memory, sizeof memory, refused.place, SK_MAX_RUN_TICKS);
    print_run("run 10000 ticks", run);
    print_save(policy, 0);

    print_states(policy);
    print_refused("pend line 8", above);
    print_refused("run 10001 ticks", refused.number);
}

int main(int count, char **words)
{
    if (!sk_version_fits()) {
        fprintf(stderr, "the header is version %lx, the archive %lx\n", (unsigned long)SK_VERSION, (unsigned long)sk_version());
        return 3;
    }
    struct sk_read_result read = sk_read(text, load(count > 1 ? words[1] : NULL));
    if (read.number != SK_DONE) {
        printf("policy refused: number %u, line %u\n", (unsigned)read.number, (unsigned)read.line);
        printf("%s\n", sk_refusal_text(read.number));
        return 1;
    }
    const struct sk_policy *policy = &read.policy;
    printf("policy accepted: %u partitions, %u segments, %u slots, sound %u\n", policy->partitions, policy->segments, policy->slots,
           (unsigned)sk_policy_sound(policy));
    for (unsigned p = 0; p < policy->partitions; p++)
        print_masks(policy, p);
    print_sources(policy, policy->save[policy->partitions - 1u]);
    print_sheet(policy);
    run_program(policy);
    printf("version %lu.%lu of header and archive\n", (unsigned long)(sk_version() / 65536), (unsigned long)(sk_version() % 65536));
    return 0;
}

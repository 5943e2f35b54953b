/* The save segment's offsets, readers and texts: programs bring each field about, and each state and fault. */
#include "check.h"

static uint8_t memory[SK_MEMORY_BYTES];
static struct sk_policy policy;

/* The save segment of partition 0 after Start, with its code set, a line pended (8: none) and so many of its ticks run. */
static const uint8_t *after(const uint8_t *code, size_t length, uint32_t line, uint32_t ticks)
{
    struct sk_run_result run;

    memset(memory, 0, sizeof memory);
    memcpy(memory, code, length);
    run = sk_policy_start(&policy, memory, sizeof memory);
    if (line < SK_LINES)
        CHECK(sk_policy_pend(&policy, memory, sizeof memory, 0, line) == SK_DONE);
    run = sk_policy_run(&policy, memory, sizeof memory, run.place, ticks);
    CHECK(run.number == SK_DONE);
    return sk_save(&policy, memory, 0);
}

#define AFTER(line, ticks, ...) after((const uint8_t[]){__VA_ARGS__}, sizeof(const uint8_t[]){__VA_ARGS__}, line, ticks)

static void registers(void)
{
    for (uint8_t r = 0; r < SK_REGISTERS; r++) {
        /* rr = 0x1234 + r; then rr = -rr, by the register next to it, which is 0 */
        uint8_t zero = (uint8_t)((r + 1) % SK_REGISTERS);
        const uint8_t *save = AFTER(8, 2, 1, r, (uint8_t)(0x34 + r), 0x12, 3, r, zero, r);

        for (uint32_t other = 0; other < SK_REGISTERS; other++)
            CHECK(sk_save_register(save, other) == (other == r ? 0u - (0x1234u + r) : 0));
        CHECK(sk_save_register(save, r + SK_REGISTERS) == sk_save_register(save, r));
        CHECK(sk_save_counter(save) == 8 && save[SK_SAVE_COUNTER] == 8 && save[SK_SAVE_COUNTER + 1] == 0);
        CHECK(save[SK_SAVE_REGISTERS + 4 * r] == (uint8_t)(0u - (0x34u + r)));
    }
    report("registers and counter");
}

static void interrupt(void)
{
    /* listen to line 5 alone, handler at 0x20; then the line is taken */
    const uint8_t *save = AFTER(5, 2, 11, 0x20, 0x20, 0);

    CHECK(save[SK_SAVE_ENABLED] == 0x20 && save[SK_SAVE_PENDED] == 0 && save[SK_SAVE_IN_HANDLER] == 1 && save[SK_SAVE_UNUSED] == 0);
    CHECK(save[SK_SAVE_HANDLER] == 0x20 && save[SK_SAVE_HANDLER + 1] == 0);
    CHECK(save[SK_SAVE_RETURN] == 4 && save[SK_SAVE_RETURN + 1] == 0);
    CHECK(sk_save_counter(save) == 0x20 && sk_save_register(save, 7) == 5 && sk_save_state(save) == SK_STATE_READY);
    /* the same, and the handler goes back */
    save = AFTER(5, 3, 11, 0x20, 0x04, 0, 12, 0, 0, 0);
    CHECK(save[SK_SAVE_IN_HANDLER] == 0 && sk_save_counter(save) == 4);
    /* a line that is not enabled, and a handler place of two bytes */
    save = AFTER(7, 1, 11, 0x01, 0x34, 0x12);
    CHECK(save[SK_SAVE_PENDED] == 0x80 && save[SK_SAVE_ENABLED] == 1);
    CHECK(save[SK_SAVE_HANDLER] == 0x34 && save[SK_SAVE_HANDLER + 1] == 0x12);
    /* a jump to a place of two bytes */
    save = AFTER(8, 2, 1, 0, 1, 0, 9, 0, 0x34, 0x12);
    CHECK(sk_save_counter(save) == 0x1234);
    report("interrupts");
}

static void state_is(const uint8_t *save, uint32_t state, const char *words)
{
    CHECK(sk_save_state(save) == state && strcmp(sk_state_text(sk_save_state(save)), words) == 0);
}

static void states(void)
{
    state_is(AFTER(8, 1, 1, 0, 0, 0), SK_STATE_READY, "ready");
    state_is(AFTER(8, 1, 0, 0, 0, 0), SK_STATE_HALTED, "halted");
    state_is(AFTER(8, 1, 255, 0, 0, 0), SK_STATE_FAULTED, "faulted");
    state_is(AFTER(8, 1, 10, 0, 0, 0), SK_STATE_WAITING, "waiting");
    CHECK(strcmp(sk_state_text(4), "unknown state, taken as halted") == 0 && sk_state_text(255) == sk_state_text(4));
    CHECK(sk_state_text(UINT32_MAX) == sk_state_text(4));
    report("states");
}

static void fault_is(const uint8_t *save, uint32_t fault, const char *part)
{
    CHECK(sk_save_fault(save) == fault && strstr(sk_fault_text(fault), part) != NULL);
    CHECK(sk_save_state(save) == (fault == SK_FAULT_NONE ? SK_STATE_READY : SK_STATE_FAULTED));
}

static void faults(void)
{
    fault_is(AFTER(8, 1, 1, 0, 0, 0), SK_FAULT_NONE, "no fault");
    fault_is(AFTER(8, 3, 1, 0, 1, 0, 9, 0, 61, 0), SK_FAULT_COUNTER, "code segment");
    fault_is(AFTER(8, 1, 16, 0, 0, 0), SK_FAULT_OPCODE, "opcode");
    fault_is(AFTER(8, 1, 1, 8, 0, 0), SK_FAULT_OPCODE, "register");
    fault_is(AFTER(8, 1, 7, 0, 1, 4), SK_FAULT_RIGHT, "right");
    fault_is(AFTER(8, 1, 7, 0, 1, 5), SK_FAULT_RIGHT, "segment");
    fault_is(AFTER(8, 2, 1, 1, 16, 0, 8, 0, 1, 4), SK_FAULT_OFFSET, "offset");
    fault_is(AFTER(8, 1, 12, 0, 0, 0), SK_FAULT_HANDLER, "handler");
    CHECK(strcmp(sk_fault_text(6), "unknown fault") == 0 && sk_fault_text(UINT32_MAX) == sk_fault_text(6));
    report("faults");
}

/* A save segment that is not there, for any record. */
static void nowhere(void)
{
    struct sk_policy bad = policy;

    CHECK(sk_save(&policy, memory, 0) == memory + 64 && sk_save(&policy, memory, 1) == memory + 192);
    CHECK(sk_save(&policy, memory, 2) == NULL && sk_save(&policy, memory, UINT32_MAX) == NULL);
    bad.partitions = 255;
    CHECK(sk_save(&bad, memory, 7) == memory + bad.base[0] && sk_save(&bad, memory, 8) == NULL);
    bad.base[1] = SK_MEMORY_BYTES - SK_SAVE_BYTES;
    CHECK(sk_save(&bad, memory, 0) == memory + SK_MEMORY_BYTES - SK_SAVE_BYTES);
    bad.base[1]++;
    CHECK(sk_save(&bad, memory, 0) == NULL);
    bad.save[1] = SK_MAX_SEGMENTS;
    CHECK(sk_save(&bad, memory, 1) == NULL);
    report("save segments that are not there");
}

/* Each number has a text of its own, and the first that has none gets the one for unknown numbers. */
static void refusals(void)
{
    for (uint32_t a = 0; a <= SK_STRAY_SOURCE; a++) {
        CHECK(sk_refusal_text(a)[0] != 0 && strcmp(sk_refusal_text(a), "unknown number") != 0);
        for (uint32_t b = 0; b < a; b++)
            CHECK(strcmp(sk_refusal_text(a), sk_refusal_text(b)) != 0);
    }
    CHECK(strcmp(sk_refusal_text(SK_STRAY_SOURCE + 1), "unknown number") == 0 && strcmp(sk_refusal_text(UINT32_MAX), "unknown number") == 0);
    CHECK(strstr(sk_refusal_text(SK_TEXT_TOO_LONG), "16,384") != NULL && strstr(sk_refusal_text(SK_FLOW_MISSING), "no flow line") != NULL);
    CHECK(strstr(sk_refusal_text(SK_NO_PARTITION), "partition") != NULL && strstr(sk_refusal_text(SK_NO_LINE), "line above 7") != NULL);
    CHECK(strstr(sk_refusal_text(SK_TOO_MANY_TICKS), "10,000") != NULL && strstr(sk_refusal_text(SK_STRAY_SOURCE), "save segment") != NULL);
    report("texts of refusals");
}

int main(void)
{
    policy = read_text(DEMONSTRATION).policy;
    registers();
    interrupt();
    states();
    faults();
    nowhere();
    refusals();
    return failures != 0;
}

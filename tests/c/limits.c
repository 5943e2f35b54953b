/* The header's limits are the archive's: each is accepted, and one more is refused by the number that the header names. */
#include "check.h"

static uint8_t memory[SK_MEMORY_BYTES + 1];

static void counts(void)
{
    struct sk_read_result most = policy_of(SK_MAX_SEGMENTS, SK_MAX_PARTITIONS, SK_MAX_SLOTS, SK_MAX_SEGMENT_BYTES, SK_MAX_SLOT_TICKS);
    struct sk_read_result over;

    CHECK(most.number == SK_DONE && sk_policy_sound(&most.policy) == 1);
    CHECK(most.policy.segments == SK_MAX_SEGMENTS && most.policy.partitions == SK_MAX_PARTITIONS && most.policy.slots == SK_MAX_SLOTS);
    CHECK(most.policy.size[0] == SK_MAX_SEGMENT_BYTES && most.policy.slot_ticks[0] == SK_MAX_SLOT_TICKS);
    over = policy_of(SK_MAX_SEGMENTS + 1, 1, 1, 64, 1);
    CHECK(over.number == SK_OUT_OF_RANGE && over.line == SK_MAX_SEGMENTS + 1);
    over = policy_of(SK_MAX_SEGMENTS, SK_MAX_PARTITIONS + 1, 1, 64, 1);
    CHECK(over.number == SK_OUT_OF_RANGE && over.line == SK_MAX_SEGMENTS + SK_MAX_PARTITIONS + 1);
    over = policy_of(2, 1, SK_MAX_SLOTS + 1, 64, 1);
    CHECK(over.number == SK_OUT_OF_RANGE && over.line == 5 + SK_MAX_SLOTS + 1);
    over = policy_of(2, 1, 1, SK_MAX_SEGMENT_BYTES + 1, 1);
    CHECK(over.number == SK_OUT_OF_RANGE && over.line == 1);
    over = policy_of(2, 1, 1, 64, SK_MAX_SLOT_TICKS + 1);
    CHECK(over.number == SK_OUT_OF_RANGE && over.line == 6);
    report("limits of a policy");
}

static void lengths(void)
{
    struct sk_policy policy = read_text(DEMONSTRATION).policy;
    struct sk_place place = {0, 0, 0};

    memset(made, 'x', sizeof made);
    CHECK(sk_read((const uint8_t *)made, SK_TEXT_BYTES).number == SK_BAD_LINE);
    CHECK(sk_read((const uint8_t *)made, SK_TEXT_BYTES + 1).number == SK_TEXT_TOO_LONG);
    for (size_t length = SK_MEMORY_BYTES - 1; length <= SK_MEMORY_BYTES + 1; length++) {
        uint32_t number = length == SK_MEMORY_BYTES ? SK_DONE : SK_MEMORY_LENGTH;

        CHECK(sk_policy_start(&policy, memory, length).number == number);
        CHECK(sk_policy_pend(&policy, memory, length, 0, 0) == number);
        CHECK(sk_policy_run(&policy, memory, length, place, 1).number == number);
    }
    report("lengths of text and memory");
}

static void calls(void)
{
    struct sk_policy policy = read_text(DEMONSTRATION).policy;
    struct sk_place place = {0, 0, 0}, no_slot = {2, 0, 0}, used_up = {0, 3, 0};

    CHECK(sk_policy_pend(&policy, memory, SK_MEMORY_BYTES, 0, SK_LINES - 1) == SK_DONE);
    CHECK(sk_policy_pend(&policy, memory, SK_MEMORY_BYTES, 0, SK_LINES) == SK_NO_LINE);
    CHECK(sk_policy_pend(&policy, memory, SK_MEMORY_BYTES, 2, 0) == SK_NO_PARTITION);
    CHECK(sk_policy_run(&policy, memory, SK_MEMORY_BYTES, place, SK_MAX_RUN_TICKS).number == SK_DONE);
    CHECK(sk_policy_run(&policy, memory, SK_MEMORY_BYTES, place, SK_MAX_RUN_TICKS + 1).number == SK_TOO_MANY_TICKS);
    CHECK(sk_policy_run(&policy, memory, SK_MEMORY_BYTES, no_slot, 1).number == SK_PLACE);
    CHECK(sk_policy_run(&policy, memory, SK_MEMORY_BYTES, used_up, 1).number == SK_PLACE);
    CHECK(sk_policy_can_reach(&policy, 0, 5).number == SK_NO_SEGMENT);
    policy.segments = 0;
    CHECK(sk_policy_sheet(&policy).number == SK_RECORD && sk_policy_reach(&policy).number == SK_RECORD);
    report("limits of calls");
}

int main(void)
{
    counts();
    lengths();
    calls();
    return failures != 0;
}

/* The functions by pointer answer, and leave in memory, what the calls by value do; and the archive's version is the header's. */
#include "check.h"

static uint8_t by_value[SK_MEMORY_BYTES], by_pointer[SK_MEMORY_BYTES];

#define SAME(a, b) CHECK(memcmp(&(a), &(b), sizeof(a)) == 0 && sizeof(a) == sizeof(b))

static void questions(const char *what, struct sk_policy policy)
{
    struct sk_reach_result reach = sk_reach(policy), reach_p = sk_policy_reach(&policy);
    struct sk_sheet_result sheet = sk_sheet(policy), sheet_p = sk_policy_sheet(&policy);

    CHECK(sk_policy_sound(&policy) == sk_sound(policy));
    SAME(reach, reach_p);
    SAME(sheet, sheet_p);
    for (uint32_t from = 0; from < 6; from++)
        for (uint32_t to = 0; to < 6; to++) {
            struct sk_answer answer = sk_can_reach(policy, from, to), answer_p = sk_policy_can_reach(&policy, from, to);
            SAME(answer, answer_p);
        }
    report(what);
}

static void calls(const char *what, struct sk_policy policy)
{
    struct sk_run_result run, run_p;

    for (size_t i = 0; i < sizeof by_value; i++)
        by_value[i] = by_pointer[i] = (uint8_t)(i * 7);
    run = sk_start(policy, by_value, sizeof by_value);
    run_p = sk_policy_start(&policy, by_pointer, sizeof by_pointer);
    SAME(run, run_p);
    SAME(by_value, by_pointer);
    for (uint32_t n = 0; n < 10; n++) {
        CHECK(sk_pend(policy, by_value, sizeof by_value, n % 3, n) == sk_policy_pend(&policy, by_pointer, sizeof by_pointer, n % 3, n));
        SAME(by_value, by_pointer);
        run = sk_run(policy, by_value, sizeof by_value, run.place, 7 * n);
        run_p = sk_policy_run(&policy, by_pointer, sizeof by_pointer, run_p.place, 7 * n);
        SAME(run, run_p);
        SAME(by_value, by_pointer);
    }
    report(what);
}

int main(void)
{
    struct sk_policy policy = read_text(DEMONSTRATION).policy, zeros = read_text("").policy;

    CHECK(sk_version() == SK_VERSION && sk_version_fits() == 1);
    CHECK(sk_version() / 65536 == SK_VERSION_MAJOR && sk_version() % 65536 == SK_VERSION_MINOR);
    report("version");
    questions("questions of a sound record", policy);
    questions("questions of the record of zeros", zeros);
    calls("calls under a sound record", policy);
    calls("calls under the record of zeros", zeros);
    return failures != 0;
}

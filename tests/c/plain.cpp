// The header and the archive in a C++ program.
#include "separation_kernel.h"
#include "separation_kernel.h"

#include <cstdio>
#include <cstring>

static uint8_t memory[SK_MEMORY_BYTES];

int main()
{
    const char *text = "segment\t0\t0\t64\nsegment\t1\t64\t44\npartition\t0\t0\t1\nright\t0\t0\tr\nflow\t0\t1\nslot\t0\t3\n";
    const sk_read_result read = sk_read(reinterpret_cast<const uint8_t *>(text), std::strlen(text));
    const sk_run_result start = sk_policy_start(&read.policy, memory, sizeof memory);
    const sk_run_result run = sk_policy_run(&read.policy, memory, sizeof memory, start.place, 5);
    const uint8_t *save = sk_save(&read.policy, memory, 0);

    std::printf("%s, version %s %s\n", sk_refusal_text(read.number), SK_VERSION_TEXT, sk_version_fits() ? "fits" : "does not fit");
    std::printf("slot %u, used %u, count %u\n", static_cast<unsigned>(run.place.slot), static_cast<unsigned>(run.place.used),
                static_cast<unsigned>(run.place.count));
    std::printf("%s, %s\n", sk_state_text(sk_save_state(save)), sk_fault_text(sk_save_fault(save)));
    return read.number == SK_DONE && sk_version_fits() ? 0 : 1;
}

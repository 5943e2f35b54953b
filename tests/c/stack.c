/* Each call takes no more stack than the header says: it is made on a stack of its own that is filled with a pattern, and the lowest byte that lost it
 * tells how deep the call went, the record among its arguments. With -v the bytes are printed too. */
#include "check.h"

/* Makes a call on the stack that ends at top: the record, if there is one, as its arguments in memory, six numbers in the registers for arguments. */
void call_on(unsigned char *top, void (*function)(void), const uint64_t *registers, const void *record, size_t record_bytes);
__asm__(".text\n.globl call_on\n.type call_on, @function\n"
        "call_on:\n push %rbp\n mov %rsp, %rbp\n push %rbx\n push %rbx\n"
        " mov %rdi, %rsp\n mov %rsi, %rax\n mov %rdx, %rbx\n mov %rcx, %rsi\n sub %r8, %rsp\n mov %rsp, %rdi\n mov %r8, %rcx\n rep movsb\n"
        " mov 0(%rbx), %rdi\n mov 8(%rbx), %rsi\n mov 16(%rbx), %rdx\n mov 24(%rbx), %rcx\n mov 32(%rbx), %r8\n mov 40(%rbx), %r9\n"
        " call *%rax\n lea -16(%rbp), %rsp\n pop %rbx\n pop %rbx\n pop %rbp\n ret\n"
        ".size call_on, . - call_on\n");

#define STACK_BYTES 65536
#define RECORD_BYTES 448 /* 436, and what brings the stack back to a multiple of 16 */
static unsigned char area[STACK_BYTES + 15], *stack; /* stack begins at a multiple of 16 */
static unsigned char answer[512];
static uint8_t memory[SK_MEMORY_BYTES], text[SK_TEXT_BYTES + 1];
static uint8_t padded[RECORD_BYTES];

enum call { READ, SOUND, START, PEND, RUN, REACH, CAN_REACH, SHEET, VERSION, CALLS };
static const struct {
    const char *name;
    void (*function)(void);
    size_t bound;
} table[CALLS] = {
    {"sk_read", (void (*)(void))sk_read, SK_STACK_READ},
    {"sk_sound", (void (*)(void))sk_sound, SK_STACK_SOUND},
    {"sk_start", (void (*)(void))sk_start, SK_STACK_START},
    {"sk_pend", (void (*)(void))sk_pend, SK_STACK_PEND},
    {"sk_run", (void (*)(void))sk_run, SK_STACK_RUN},
    {"sk_reach", (void (*)(void))sk_reach, SK_STACK_REACH},
    {"sk_can_reach", (void (*)(void))sk_can_reach, SK_STACK_CAN_REACH},
    {"sk_sheet", (void (*)(void))sk_sheet, SK_STACK_SHEET},
    {"sk_version", (void (*)(void))sk_version, SK_STACK_VERSION},
};
static size_t deepest[CALLS];

/* A call over two patterns: a byte that the call happens to leave as one is shows in the other. */
static void measure(enum call call, const uint64_t *registers)
{
    size_t record_bytes = call == READ || call == VERSION ? 0 : RECORD_BYTES;

    for (int pattern = 0xa5; pattern > 0; pattern -= 0x4b) {
        size_t low = 0;

        memset(stack, pattern, STACK_BYTES);
        call_on(stack + STACK_BYTES, table[call].function, registers, padded, record_bytes);
        while (low < STACK_BYTES && stack[low] == pattern)
            low++;
        if (STACK_BYTES - low > deepest[call])
            deepest[call] = STACK_BYTES - low;
    }
}

#define ADDRESS(pointer) (uint64_t)(uintptr_t)(pointer)
#define MEASURE(call, ...) measure(call, (const uint64_t[6]){__VA_ARGS__})

/* Numbers that are the same in every run. */
static uint32_t random_state = 1;

static uint32_t some(uint32_t below)
{
    random_state = random_state * 1664525u + 1013904223u;
    return (random_state >> 8) % below;
}

/* Every call under a record; memory of random instructions, so that Runs come to each opcode and fault. */
static void under(const struct sk_policy *policy)
{
    memcpy(padded, policy, sizeof *policy);
    MEASURE(SOUND, 0);
    MEASURE(REACH, ADDRESS(answer));
    MEASURE(SHEET, ADDRESS(answer));
    for (uint32_t to = 0; to < 33; to++)
        MEASURE(CAN_REACH, some(32), to);
    for (int time = 0; time < 40; time++) {
        uint32_t place[4] = {some(policy->slots ? policy->slots : 1u), 0, some(100), 0};
        uint64_t halves[2];

        memcpy(halves, place, sizeof halves);
        for (size_t i = 0; i < sizeof memory; i++)
            memory[i] = (uint8_t)(i % 4 == 0 ? some(18) : some(some(2) ? 9 : 256));
        MEASURE(START, ADDRESS(memory), sizeof memory);
        for (uint32_t line = 0; line <= SK_LINES; line++)
            MEASURE(PEND, ADDRESS(memory), sizeof memory, some(8), line);
        MEASURE(RUN, ADDRESS(memory), sizeof memory, halves[0], halves[1], some(3000));
    }
    MEASURE(RUN, ADDRESS(memory), sizeof memory, 0, 0, SK_MAX_RUN_TICKS + 1);
    MEASURE(START, ADDRESS(memory), sizeof memory - 1);
}

/* A text, and the same with a byte here and there spoilt, for the reader's ways out; then the calls under its record. */
static void from(const char *accepted)
{
    size_t length = strlen(accepted);
    struct sk_read_result read;

    memcpy(text, accepted, length);
    read = sk_read(text, length);
    CHECK(read.number == SK_DONE);
    MEASURE(READ, ADDRESS(answer), ADDRESS(text), length);
    MEASURE(READ, ADDRESS(answer), ADDRESS(text), length - 1);
    MEASURE(READ, ADDRESS(answer), ADDRESS(text), sizeof text);
    for (size_t at = 0; at < length; at += 1 + length / 300) {
        uint8_t kept = text[at];

        text[at] = (uint8_t)"\t\n0x9fr "[some(8)];
        MEASURE(READ, ADDRESS(answer), ADDRESS(text), length);
        text[at] = kept;
    }
    under(&read.policy);
}

int main(int count, char **words)
{
    int verbose = count > 1 && strcmp(words[1], "-v") == 0;
    struct sk_policy zeros;

    stack = area + (0 - (uintptr_t)area) % 16;
    MEASURE(VERSION, 0);
    from(DEMONSTRATION);
    policy_of(SK_MAX_SEGMENTS, SK_MAX_PARTITIONS, SK_MAX_SLOTS, SK_MAX_SEGMENT_BYTES, 1);
    from(made);
    report("texts");
    memset(&zeros, 0, sizeof zeros);
    under(&zeros);
    for (int call = 0; call < CALLS; call++) {
        size_t least = (call == READ || call == VERSION ? 0 : RECORD_BYTES) + 8;

        if (verbose)
            printf("%s: %lu of %lu\n", table[call].name, (unsigned long)deepest[call], (unsigned long)table[call].bound);
        CHECK(deepest[call] >= least && deepest[call] <= table[call].bound);
        report(table[call].name);
    }
    return failures != 0;
}

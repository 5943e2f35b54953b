/* Two reads of one text give one record, byte for byte and field by field, whatever lay where it is written. */
#include "check.h"

/* sk_read as the x86-64 ABI calls it: the answer's address comes first. So the bytes that lie there before the call are the test's, not a compiler's. */
void *read_into(void *answer, const uint8_t *text, size_t text_len) __asm__("sk_read");

#define SIZE(field) sizeof(((struct sk_policy *)0)->field)
#define SAME(field) CHECK(memcmp(&a->field, &b->field, SIZE(field)) == 0)

/* The fields in order: each begins where the one before ends, and the last ends at 436. So no byte lies between them, and the list has them all. */
static void no_hole(void)
{
    size_t end = 0;
#define NEXT(field) (CHECK(offsetof(struct sk_policy, field) == end), end += SIZE(field))
    NEXT(segments), NEXT(partitions), NEXT(slots), NEXT(unused), NEXT(base), NEXT(size), NEXT(code), NEXT(save);
    NEXT(slot_partition), NEXT(slot_ticks), NEXT(reads), NEXT(writes), NEXT(sources);
    CHECK(end == 436 && end == sizeof(struct sk_policy));
    report("fields without a hole");
}

static void same_fields(const struct sk_policy *a, const struct sk_policy *b)
{
    SAME(segments), SAME(partitions), SAME(slots), SAME(unused), SAME(base), SAME(size), SAME(code), SAME(save);
    SAME(slot_partition), SAME(slot_ticks), SAME(reads), SAME(writes), SAME(sources);
}

static struct sk_read_result read_over(int fill, const char *text)
{
    struct sk_read_result answer;

    memset(&answer, fill, sizeof answer);
    CHECK(read_into(&answer, (const uint8_t *)text, strlen(text)) == &answer);
    return answer;
}

static void two_reads(const char *what, const char *text, uint32_t number)
{
    struct sk_read_result zeros = read_over(0x00, text), ones = read_over(0xff, text), plain = read_text(text);

    CHECK(zeros.number == number && ones.number == number && plain.number == number);
    CHECK(memcmp(&zeros, &ones, sizeof zeros) == 0);
    CHECK(memcmp(&zeros.policy, &ones.policy, sizeof zeros.policy) == 0);
    CHECK(memcmp(&zeros.policy, &plain.policy, sizeof zeros.policy) == 0);
    same_fields(&zeros.policy, &ones.policy);
    same_fields(&zeros.policy, &plain.policy);
    report(what);
}

/* Byte 3 of the record is 0, and any other value there is refused. */
static void unused_byte(void)
{
    struct sk_policy policy = read_text(DEMONSTRATION).policy;

    CHECK(policy.unused == 0 && sk_policy_sound(&policy) == 1);
    for (unsigned value = 1; value < 256; value++) {
        policy.unused = (uint8_t)value;
        CHECK(sk_policy_sound(&policy) == 0);
    }
    report("the unused byte");
}

int main(void)
{
    struct sk_policy zeros;
    struct sk_policy refused = read_over(0xff, "slot\t0\t3\n").policy;

    no_hole();
    two_reads("two reads of an accepted text", DEMONSTRATION, SK_DONE);
    two_reads("two reads of a refused text", "segment\t0\t0\t64", SK_BAD_LINE);
    memset(&zeros, 0, sizeof zeros);
    CHECK(memcmp(&refused, &zeros, sizeof zeros) == 0);
    report("a refused text's record of zeros");
    unused_byte();
    return failures != 0;
}

/* The separation kernel's C boundary: link with libboundary.a.
 *
 * Each function answers for every text, record, memory, place and number; a refused call changes no byte of memory. A pointer and its length must be
 * those of bytes that the caller may read (text) or read and write (memory). */
#ifndef SEPARATION_KERNEL_H
#define SEPARATION_KERNEL_H

#include <stddef.h>
#include <stdint.h>

/* 2.0: rights and flows are masks; a record of 1.x does not fit.
 * 2.1: opcodes 13 and 14 load and store four bytes. Both were faults, so memory may now act otherwise under the same policy.
 * 2.2: a flow line into a save segment from a segment that its partition may not read is refused: the text by 16, the record by 10.
 * 2.3: sk_reach and sk_can_reach say who can reach whom, with 15 for a number that is no segment's. Nothing else moved.
 * 2.4: sk_sheet says how many ticks each partition has in one round, and how long it may be silent. Nothing else moved.
 * 3.0: a place has a count of ticks; a place, and an answer with one, of 2.x does not fit. Opcode 15 reads the count. It was a fault, so memory may now act
 *      otherwise under the same policy.
 * 3.1: sk_version says which version the archive is. The macros SEPARATION_KERNEL_VERSION.. are now SK_VERSION..: the header comes with its archive, so the
 *      old names are gone. Constants, enums, texts and functions by pointer in this header are new. No answer moved. */
#define SK_VERSION_MAJOR 3
#define SK_VERSION_MINOR 1
#define SK_VERSION_TEXT "3.1"
#define SK_VERSION (SK_VERSION_MAJOR * 65536u + SK_VERSION_MINOR)

/* Limits. Memory has exactly, the others have at most, so many. */
#define SK_MEMORY_BYTES 16384
#define SK_TEXT_BYTES 16384
#define SK_MAX_SEGMENTS 32
#define SK_MAX_SEGMENT_BYTES 4096
#define SK_MAX_PARTITIONS 8
#define SK_MAX_SLOTS 32
#define SK_MAX_SLOT_TICKS 1000
#define SK_MAX_RUN_TICKS 10000
#define SK_LINES 8 /* interrupt lines of each partition, 0 to 7 */

/* A partition's save segment: its size, and where each field begins. Numbers of two and four bytes have the lowest byte first. */
#define SK_REGISTERS 8
#define SK_SAVE_BYTES 44
#define SK_SAVE_REGISTERS 0   /* r0 to r7, four bytes each */
#define SK_SAVE_COUNTER 32    /* two bytes: an offset in the code segment */
#define SK_SAVE_STATE 34      /* enum sk_state; above 3 as halted */
#define SK_SAVE_FAULT 35      /* enum sk_fault */
#define SK_SAVE_PENDED 36     /* bit k: line k */
#define SK_SAVE_ENABLED 37    /* likewise */
#define SK_SAVE_RETURN 38     /* two bytes: where opcode 12, back, goes */
#define SK_SAVE_HANDLER 40    /* two bytes: where an interrupt goes */
#define SK_SAVE_IN_HANDLER 42 /* 0 no, else yes */
#define SK_SAVE_UNUSED 43

#ifdef __cplusplus
extern "C" {
#endif

/* The answers: 0, or why a text or call was refused. Of several reasons the first counts, and 16 comes after 8; 2 to 5 are those of the
 * first bad line. */
enum sk_refusal {
    SK_DONE = 0,            /* accepted, or done */
    SK_TEXT_TOO_LONG = 1,   /* over 16,384 bytes */
    SK_BAD_LINE = 2,        /* unknown word, wrong fields, bad number (sk_read says the form) or letters, no line end */
    SK_OUT_OF_ORDER = 3,    /* kind, id or pair out of order */
    SK_OUT_OF_RANGE = 4,    /* too many lines of a kind, a number out of range, a partition or segment that isn't there */
    SK_CLASH = 5,           /* segments overlap, a save segment misused, a flow from a segment to itself */
    SK_EMPTY = 6,           /* no segment, partition or slot */
    SK_CODE_NOT_READ = 7,   /* a partition lacks r on its code segment */
    SK_FLOW_MISSING = 8,    /* a partition could carry bytes where no flow line allows it */
    SK_MEMORY_LENGTH = 9,   /* memory isn't 16,384 bytes */
    SK_RECORD = 10,         /* the record is that of no accepted text */
    SK_NO_PARTITION = 11,   /* no such partition */
    SK_NO_LINE = 12,        /* interrupt line above 7 */
    SK_PLACE = 13,          /* slot not in the schedule, or its ticks used up */
    SK_TOO_MANY_TICKS = 14, /* over 10,000 ticks in one Run */
    SK_NO_SEGMENT = 15,     /* no such segment */
    SK_STRAY_SOURCE = 16    /* a flow line into a save segment from a segment that its partition may not read */
};

/* What a partition is doing. Halted and faulted stay until sk_start. */
enum sk_state {
    SK_STATE_READY = 0,   /* each of its ticks runs an instruction, or takes an interrupt */
    SK_STATE_HALTED = 1,
    SK_STATE_FAULTED = 2, /* the counter stays on the instruction that faulted */
    SK_STATE_WAITING = 3  /* for a line that is pended and enabled */
};

/* Why a partition faulted. Of several reasons the first of 1, 2, 5, 3, 4 counts. */
enum sk_fault {
    SK_FAULT_NONE = 0,
    SK_FAULT_COUNTER = 1, /* counter + 4 is over the code segment's length */
    SK_FAULT_OPCODE = 2,  /* opcode above 15, or a register byte above 7 */
    SK_FAULT_RIGHT = 3,   /* no such segment, or no right line gives r for a load, w for a store */
    SK_FAULT_OFFSET = 4,  /* an offset at or past the segment's length; for a word, offset + 4 over it */
    SK_FAULT_HANDLER = 5  /* wait inside a handler, or back outside one */
};

/* A policy, in 436 bytes without a hole: memcmp compares two of them, and two reads of one text are equal by it. The counts are at most 32, 8 and 32;
 * entries past them are 0.
 *
 * In a mask bit s is worth 2 to the power s and stands for segment s; bits past the last segment are 0. To test one:
 *
 *     policy.reads[p] >> s & 1      a right line gives partition p r on segment s (r or rw)
 *     policy.writes[p] >> s & 1     it gives w (w or rw)
 *     policy.sources[t] >> s & 1    there is a line "flow s t"
 *
 * s must be below 32. The masks hold right lines alone: a partition's own save segment, which it reads and writes without one, has no bit in them. */
struct sk_policy {
    uint8_t segments, partitions, slots;
    uint8_t unused;               /* 0; a record with another value is refused by 10 */
    uint16_t base[32], size[32];  /* of each segment */
    uint8_t code[8], save[8];     /* each partition's code and save segment */
    uint8_t slot_partition[32];   /* of each slot of the schedule */
    uint16_t slot_ticks[32];
    uint32_t reads[8], writes[8]; /* of each partition: mask of segments */
    uint32_t sources[32];         /* of each segment: mask of those that flow into it */
};

/* A place in the schedule: a slot, the ticks used in it, and the count of ticks since sk_start, which every tick raises by 1, whatever it does, and which
 * comes round to 0 after 4,294,967,295. Opcode 15 gives a program the count before its tick. */
struct sk_place {
    uint32_t slot, used, count;
};

struct sk_read_result {
    uint32_t number, line;
    struct sk_policy policy;
};

struct sk_run_result {
    uint32_t number;
    struct sk_place place;
};

struct sk_reach_result {
    uint32_t number;
    uint32_t sources[32]; /* bit s of sources[t]: a chain leads from s to t */
};

struct sk_answer {
    uint32_t number, yes; /* yes: 1 or 0 */
};

struct sk_sheet_result {
    uint32_t number;
    uint32_t ticks[8], silence[8]; /* of each partition */
};

/* The layout that the archive expects: a compiler that lays a struct out otherwise stops here. */
#if defined(__cplusplus) && __cplusplus >= 201103L
#define SK_LAYOUT(name, holds) static_assert(holds, "layout of " #name)
#elif defined(__STDC_VERSION__) && __STDC_VERSION__ >= 201112L
#define SK_LAYOUT(name, holds) _Static_assert(holds, "layout of " #name)
#else
#define SK_LAYOUT(name, holds) typedef char sk_layout_of_##name[(holds) ? 1 : -1]
#endif
#define SK_AT(name, field, at) (offsetof(struct name, field) == (at))

SK_LAYOUT(sk_policy, sizeof(struct sk_policy) == 436 && SK_AT(sk_policy, segments, 0) && SK_AT(sk_policy, partitions, 1) && SK_AT(sk_policy, slots, 2)
    && SK_AT(sk_policy, unused, 3) && SK_AT(sk_policy, base, 4) && SK_AT(sk_policy, size, 68) && SK_AT(sk_policy, code, 132) && SK_AT(sk_policy, save, 140)
    && SK_AT(sk_policy, slot_partition, 148) && SK_AT(sk_policy, slot_ticks, 180) && SK_AT(sk_policy, reads, 244) && SK_AT(sk_policy, writes, 276)
    && SK_AT(sk_policy, sources, 308));
SK_LAYOUT(sk_place, sizeof(struct sk_place) == 12 && SK_AT(sk_place, slot, 0) && SK_AT(sk_place, used, 4) && SK_AT(sk_place, count, 8));
SK_LAYOUT(sk_read_result, sizeof(struct sk_read_result) == 444 && SK_AT(sk_read_result, number, 0) && SK_AT(sk_read_result, line, 4)
    && SK_AT(sk_read_result, policy, 8));
SK_LAYOUT(sk_run_result, sizeof(struct sk_run_result) == 16 && SK_AT(sk_run_result, number, 0) && SK_AT(sk_run_result, place, 4));
SK_LAYOUT(sk_reach_result, sizeof(struct sk_reach_result) == 132 && SK_AT(sk_reach_result, number, 0) && SK_AT(sk_reach_result, sources, 4));
SK_LAYOUT(sk_answer, sizeof(struct sk_answer) == 8 && SK_AT(sk_answer, number, 0) && SK_AT(sk_answer, yes, 4));
SK_LAYOUT(sk_sheet_result, sizeof(struct sk_sheet_result) == 68 && SK_AT(sk_sheet_result, number, 0) && SK_AT(sk_sheet_result, ticks, 4)
    && SK_AT(sk_sheet_result, silence, 36));
#undef SK_AT
#undef SK_LAYOUT

/* Calls at one time. The archive has no state: no data that it writes, no allocation, no lock. All that a call reads and writes is its arguments, its answer
 * and its stack. So calls on different memories, and those without memory, may run at once, from any threads and interrupt handlers. Calls on one
 * memory must not overlap: neither sk_start, sk_pend and sk_run, nor the caller's own reads and writes of it. So a line is pended between two Runs only:
 * an interrupt handler sets a flag, and the loop that runs the kernel pends (examples/c/interrupts.c):
 *
 *     static volatile sig_atomic_t asked[SK_LINES];
 *     void on_sensor(void) { asked[2] = 1; }
 *
 *     for (;;) {
 *         for (uint32_t line = 0; line < SK_LINES; line++)
 *             if (asked[line]) {
 *                 asked[line] = 0; (first: a request that comes now is then kept for the next round)
 *                 sk_policy_pend(&policy, memory, sizeof memory, 0, line);
 *             }
 *         run = sk_policy_run(&policy, memory, sizeof memory, run.place, 100);
 *     }
 *
 * How long a Run lasts. It is at most 10,000 ticks, and nothing in memory can make a tick wait, loop or fail: that every tick ends is proved. Measured, and
 * no bound: programs that compute or copy took up to 88 instructions a tick, and 3,600 before the first (tests/instructions.md, of an archive that the
 * older kit built); of single ticks of random programs none took over 128 (tests/c/ticks.c). A line waits for the Run's end until it can be pended, so choose
 * the ticks of a Run by that. */

/* The stack that a call takes below its caller's frame, at most, in bytes: the record among its arguments (448), its return address, all frames below it, the
 * 128 bytes that the x86-64 ABI lets a function use under its frame, and 256 for memcpy and memset, the only functions that the archive asks for. They are
 * the C library's or the firmware's; so is what a dynamic linker takes to find them at the first call. tests/check-archive computes the numbers from the
 * archive, which has no recursion and no call through a pointer. Its code and constants are 17,088 bytes. It uses the general and the xmm registers (SSE2),
 * so an interrupt handler that calls it must save both. */
#define SK_STACK_VERSION 192
#define SK_STACK_READ 2752
#define SK_STACK_SOUND 1856
#define SK_STACK_START 1856
#define SK_STACK_PEND 1856
#define SK_STACK_RUN 2368
#define SK_STACK_REACH 2112
#define SK_STACK_CAN_REACH 1856
#define SK_STACK_SHEET 2112

/* The version of the archive, to be compared with SK_VERSION: 65,536 times the major number, and the minor one. */
uint32_t sk_version(void);

/* Reads a policy text. Accepted: number 0, line 0 and its record. Refused: 1 to 8 or 16, the bad line counted from 1 (0 if it is no single line's
 * fault), and the record of zeros.
 *
 * A number is decimal, of 1 to 5 digits, or since 1.1 hexadecimal: 0x and 1 to 4 digits 0-9 or a-f. No leading zero, except in 0 and 0x0. Both forms may
 * be mixed, so several texts may give one record. */
struct sk_read_result sk_read(const uint8_t *text, size_t text_len);

/* 1 if some accepted text gives this record, else 0. The other calls refuse all records for which it is 0,
 * so nothing need be known of where a record comes from. */
uint32_t sk_sound(struct sk_policy policy);

/* Starts: the save segments become zero, all other bytes stay, and the place is slot 0 with 0 ticks used and count 0.
 * Refused: 9 or 10, and the same place, count 0 too. */
struct sk_run_result sk_start(struct sk_policy policy, uint8_t *memory, size_t memory_len);

/* Pends an interrupt line (0 to 7) for a partition, which takes it in a tick of its own once it listens to it.
 * Refused: 9 to 12. */
uint32_t sk_pend(struct sk_policy policy, uint8_t *memory, size_t memory_len, uint32_t partition, uint32_t line);

/* Runs 0 to 10,000 ticks from a place, and returns the place after them: its count is that of the place before and the ticks, modulo 4,294,967,296. Any
 * count is a good one.
 * Refused: 9, 10, 13 or 14, and the place that was given, its count with it. */
struct sk_run_result sk_run(struct sk_policy policy, uint8_t *memory, size_t memory_len, struct sk_place place, uint32_t ticks);

/* Who can reach whom: for each segment the mask of all segments from which a chain leads to it.
 *
 * A chain from s to t is one or more flow lines: the first goes out from s, each further one from the segment that the line before went into, and the last
 * goes into t. It may have any length. A segment has its own bit only if a chain returns to it. With that bit added a mask is the set of segments which
 * separation over whole runs begins equal (docs/POLICY.md, "Who can reach whom").
 *
 * Refused: 10. All masks are 0 then, and always those past the last segment. A segment that nobody reaches has 0 too: the number tells the two apart. */
struct sk_reach_result sk_reach(struct sk_policy policy);

/* Can segment `from` reach segment `to`? It always agrees with the report: yes is bit `from` of sources[to]. It stops at the first chain found.
 * Refused: 10, and after it 15 if from or to isn't a segment. The answer is no then (0). */
struct sk_answer sk_can_reach(struct sk_policy policy, uint32_t from, uint32_t to);

/* The schedule sheet: for each partition its ticks in one round, and its longest silence, the most ticks in a row in which it isn't current.
 *
 * The schedule begins again after its last slot, so the stretch may go round the end. Current goes by the slot, whether the partition's program runs, waits
 * or has halted. The ticks of all partitions add up to those of one round. Ticks 0 and silence 0 are a partition without a slot, which never runs; silence 0
 * with ticks is one that has every slot and is always current (docs/POLICY.md, "How long a partition may be silent").
 *
 * Refused: 10. All ticks and silences are 0 then, and always those past the last partition. */
struct sk_sheet_result sk_sheet(struct sk_policy policy);

/* The calls above that take a policy, by pointer: sk_policy_run(&policy, ..) is sk_run(policy, ..), and so for the others. The pointer must not be null. */
static inline uint32_t sk_policy_sound(const struct sk_policy *policy)
{
    return sk_sound(*policy);
}

static inline struct sk_run_result sk_policy_start(const struct sk_policy *policy, uint8_t *memory, size_t memory_len)
{
    return sk_start(*policy, memory, memory_len);
}

static inline uint32_t sk_policy_pend(const struct sk_policy *policy, uint8_t *memory, size_t memory_len, uint32_t partition, uint32_t line)
{
    return sk_pend(*policy, memory, memory_len, partition, line);
}

static inline struct sk_run_result sk_policy_run(const struct sk_policy *policy, uint8_t *memory, size_t memory_len, struct sk_place place, uint32_t ticks)
{
    return sk_run(*policy, memory, memory_len, place, ticks);
}

static inline struct sk_reach_result sk_policy_reach(const struct sk_policy *policy)
{
    return sk_reach(*policy);
}

static inline struct sk_answer sk_policy_can_reach(const struct sk_policy *policy, uint32_t from, uint32_t to)
{
    return sk_can_reach(*policy, from, to);
}

static inline struct sk_sheet_result sk_policy_sheet(const struct sk_policy *policy)
{
    return sk_sheet(*policy);
}

/* 1 if the archive is of this header's version, else 0. A minor version may act otherwise too (2.1, 2.2), so both numbers must be the same. */
static inline int sk_version_fits(void)
{
    return sk_version() == SK_VERSION;
}

/* A partition's save segment in memory; null if the policy has no such partition, or its save segment is not in memory (that of no accepted text).
 * sk_save_register, _counter, _state and _fault read it. */
static inline const uint8_t *sk_save(const struct sk_policy *policy, const uint8_t *memory, uint32_t partition)
{
    uint32_t segment;

    if (partition >= SK_MAX_PARTITIONS || partition >= policy->partitions)
        return NULL;
    segment = policy->save[partition];
    if (segment >= SK_MAX_SEGMENTS || policy->base[segment] > SK_MEMORY_BYTES - SK_SAVE_BYTES)
        return NULL;
    return memory + policy->base[segment];
}

/* r is taken modulo 8. */
static inline uint32_t sk_save_register(const uint8_t *save, uint32_t r)
{
    const uint8_t *at = save + SK_SAVE_REGISTERS + 4 * (r % SK_REGISTERS);

    return (uint32_t)at[0] | (uint32_t)at[1] << 8 | (uint32_t)at[2] << 16 | (uint32_t)at[3] << 24;
}

static inline uint32_t sk_save_counter(const uint8_t *save)
{
    return (uint32_t)save[SK_SAVE_COUNTER] | (uint32_t)save[SK_SAVE_COUNTER + 1] << 8;
}

static inline uint32_t sk_save_state(const uint8_t *save)
{
    return save[SK_SAVE_STATE];
}

static inline uint32_t sk_save_fault(const uint8_t *save)
{
    return save[SK_SAVE_FAULT];
}

/* In words: what a call answered, a partition's state, its fault. Every number has a text. */
static inline const char *sk_refusal_text(uint32_t number)
{
    static const char *const texts[] = {
        "done",
        "the text is over 16,384 bytes",
        "not the form of a line",
        "kind, id or pair out of order",
        "too many lines of a kind, a number out of range, or a partition or segment that is not there",
        "segments overlap, a save segment is misused, or a flow goes from a segment to itself",
        "no segment, no partition or no slot",
        "a partition lacks r on its code segment",
        "a partition could carry bytes where no flow line allows it",
        "memory is not 16,384 bytes",
        "the record is that of no accepted text",
        "no such partition",
        "interrupt line above 7",
        "slot not in the schedule, or its ticks used up",
        "over 10,000 ticks in one Run",
        "no such segment",
        "a flow line into a save segment from a segment that its partition may not read"};

    return number < sizeof texts / sizeof texts[0] ? texts[number] : "unknown number";
}

static inline const char *sk_state_text(uint32_t state)
{
    static const char *const texts[] = {"ready", "halted", "faulted", "waiting"};

    return state < sizeof texts / sizeof texts[0] ? texts[state] : "unknown state, taken as halted";
}

static inline const char *sk_fault_text(uint32_t fault)
{
    static const char *const texts[] = {
        "no fault",
        "the instruction is not whole inside the code segment",
        "no such opcode or register",
        "no such segment, or no right to it",
        "offset past the end of the segment",
        "wait inside a handler, or back outside one"};

    return fault < sizeof texts / sizeof texts[0] ? texts[fault] : "unknown fault";
}

#ifdef __cplusplus
}
#endif

#endif

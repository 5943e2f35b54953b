"""Texts at the edges of refusal 16 (02, S-5), a flow line into a save segment from what its partition can't read; edge_texts.py writes them with the others."""
from text_parts import DEMO, add, hexed, longest, many_segments, small, text

# Partitions 0, 1, 2 have the code segments 4, 0, 7 and the save segments 3, 6, 1; partition 1 has no slot. All write 2, which nobody reads. 5, 8, 9 are
# read by partitions 0, 1, 2 alone and written by 1, 2, 0. 10 has no right, nor has 11, which is as long as a save segment.
SEGMENTS = [b"segment %d %d %d" % (i, 64 * i, 44 if i in (1, 3, 6, 11) else 16) for i in range(12)]
PARTITIONS = [b"partition 0 4 3", b"partition 1 0 6", b"partition 2 7 1"]
RIGHTS = {
    (0, 2): b"w", (0, 4): b"r", (0, 5): b"r", (0, 9): b"w",
    (1, 0): b"r", (1, 2): b"w", (1, 5): b"w", (1, 8): b"r",
    (2, 2): b"w", (2, 7): b"r", (2, 8): b"w", (2, 9): b"r",
}
ASKED = [
    (0, 2), (0, 5), (0, 6), (1, 2), (1, 8), (3, 2), (3, 9), (4, 2), (4, 3), (4, 9), (5, 2), (5, 3), (5, 9), (6, 2), (6, 5), (7, 1), (7, 2), (7, 8), (8, 2), (8, 5),
    (8, 6), (9, 1), (9, 2), (9, 8),
]
SLOTS = [b"slot 0 2", b"slot 2 1"]
# What its partition may read, by save segment.
READ = {3: (3, 4, 5), 6: (0, 6, 8), 1: (1, 7, 9)}
STRAY = [(s, t) for t in READ for s in range(12) if s not in READ[t]]
OTHER = [(s, t) for s in range(12) for t in range(12) if s != t and t not in READ]


def lines(*more, less=(), rights={}, slots=SLOTS):
    """The policy above with these flow lines more, or less, and with these letters for rights, none for no right."""
    flows = sorted({*ASKED, *more} - {*less})
    held = [(*pair, letters) for pair, letters in sorted({**RIGHTS, **rights}.items()) if letters]
    return [*SEGMENTS, *PARTITIONS, *(b"right %d %d %s" % r for r in held), *(b"flow %d %d" % f for f in flows), *slots]


def policy(*more, **changes):
    return text(*lines(*more, **changes))


def add_strays():
    add("stray-none", policy())
    # Into the save segment of the first partition, 3, of the one without a slot, 6, and of the last, 1: from code and save segments of the others, from what
    # the partition only writes, from what another alone reads, from what nobody reads. Chains lead there from some of these, which is no matter.
    for s, t in STRAY:
        add("stray-%d-into-%d" % (s, t), policy((s, t)))
    add("stray-two-into-one", policy((0, 3), (9, 3)))
    add("stray-two-into-first-and-last", policy((10, 1), (10, 3)))
    add("stray-saves-crossed", policy((1, 3), (3, 1)))
    add("stray-all", policy(*STRAY))
    # Other segments may have any source.
    for s in (1, 7, 10):
        add("source-%d-into-unsaved-44" % s, policy((s, 11)))
    add("sources-all-into-unsaved-44", policy(*[(s, 11) for s in range(11)]))
    add("sources-all-but-stray", policy(*OTHER))
    add("sources-all-but-stray-and-one", policy(*OTHER, (2, 6)))


def add_order():
    # 16 alone is stray-2-into-3. The line that is missing goes into the same save segment, into one before and one behind it, and into others.
    for s, t in [(4, 3), (7, 1), (0, 6), (1, 2), (4, 9)]:
        add("8-before-16-%d-into-%d" % (s, t), policy((2, 3), less=[(s, t)]))
    add("8-before-16-in-its-place", policy((9, 3), less=[(5, 3)]))
    add("8-before-16-all", policy(*STRAY, less=ASKED))
    # Without the right on its code the line from there is stray itself.
    add("7-before-16", policy(rights={(0, 4): b""}))
    add("7-before-16-of-last", policy((2, 3), rights={(2, 7): b""}, less=[(7, 1)]))
    add("7-before-16-of-no-slot", policy((2, 6), rights={(1, 0): b""}))
    add("7-before-8-and-16", policy((2, 3), rights={(0, 4): b""}, less=[(5, 3)]))
    add("6-before-16", policy((2, 3), slots=[]))
    add("6-before-7-and-16", policy((2, 3), slots=[], rights={(0, 4): b""}))
    add("6-before-8-and-16", policy((2, 3), slots=[], less=[(5, 3)]))
    add("6-before-7-and-8-and-16", policy((2, 3), slots=[], rights={(0, 4): b""}, less=[(5, 3)]))
    # A stray line, and a bad one further down.
    add("5-before-16", policy((0, 3), (10, 10)))
    add("5-before-16-save-to-itself", policy((0, 3), (3, 3)))
    add("5-save-to-itself-alone", policy((3, 3)))
    add("4-before-16", policy((0, 3), (12, 3)))
    add("4-before-16-slot", policy((0, 3), slots=[b"slot 0 2", b"slot 3 1"]))
    add("3-before-16", policy((0, 3), slots=[b"slot 0 2", b"flow 11 3"]))
    add("3-before-16-same-twice", policy((11, 3), slots=[b"flow 11 3", b"slot 0 2"]))
    add("3-before-16-falls", policy((11, 6), slots=[b"flow 11 3", b"slot 0 2"]))
    add("2-before-16", policy((0, 3), slots=[b"slot 0 2", b"slots 2 1"]))
    add("2-before-16-no-line-end", policy((0, 3))[:-1])
    add("1-before-16", text(*hexed(longest(stray=True))))
    add("longest-and-stray", text(*longest(stray=True)))


def add_mended():
    # The line left out; or with it the right to read, and then all lines that 8 asks for, also into what the partition writes.
    for name, s, t, p, written in [("first", 0, 3, 0, [(0, 9)]), ("no-slot", 9, 6, 1, [(9, 5)]), ("last", 10, 1, 2, [(10, 2), (10, 8)])]:
        right = {(p, s): b"r"}
        add("stray-to-%s" % name, policy((s, t), *written))
        add("stray-to-%s-left-out" % name, policy(*written))
        add("stray-to-%s-right-alone" % name, policy((s, t), rights=right))
        add("stray-to-%s-left-out-with-right" % name, policy(*written, rights=right))
        add("stray-to-%s-mended" % name, policy((s, t), *written, rights=right))
    add("stray-to-last-one-line-short", policy((10, 1), (10, 2), rights={(2, 10): b"r"}))
    # Letters: w gives no reading, and rw asks for lines into the segment too.
    into_0, into_5 = [(s, 0) for s in (3, 4, 5)], [(3, 5), (4, 5)]
    add("stray-right-w", policy((0, 3), *into_0, rights={(0, 0): b"w"}))
    add("stray-right-rw", policy((0, 3), (0, 9), *into_0, rights={(0, 0): b"rw"}))
    add("stray-right-of-another", policy((10, 1), (10, 2), (10, 5), (10, 6), rights={(1, 10): b"r"}))
    add("stray-right-widened", policy(*into_5, rights={(0, 5): b"rw"}))
    add("stray-right-narrowed", policy(*into_5, rights={(0, 5): b"w"}))
    add("stray-right-taken", policy(rights={(0, 5): b""}))
    add("stray-right-taken-and-line", policy(rights={(0, 5): b""}, less=[(5, 3)]))


def add_eight():
    # Eight partitions of one code segment, 8; partition p has the save segment 7 - p, and the last alone has a slot. Nobody reads 9.
    partitions, rights = [b"partition %d 8 %d" % (p, 7 - p) for p in range(8)], [b"right %d 8 r" % p for p in range(8)]
    for name, more in [("none", []), *(("9-into-%d" % t, [(9, t)]) for t in range(8)), ("1-into-0", [(1, 0)]), ("6-into-7", [(6, 7)]), ("two", [(9, 0), (9, 7)])]:
        flows = [b"flow %d %d" % f for f in sorted([(8, t) for t in range(8)] + more)]
        add("eight-stray-%s" % name, small(many_segments(10), partitions, rights, flows, [b"slot 7 1"]))


def add_numbers():
    for name, fields in [("from", (1,)), ("to", (2,)), ("both", (1, 2))]:
        add("hex-stray-%s" % name, text(*hexed(DEMO[:15] + [b"flow 4 1"] + DEMO[15:], lambda line, field: line == 15 and field in fields)))
    add("hex-stray-all", text(*hexed(lines((2, 3)))))
    add("hex-stray-mended-all", text(*hexed(lines((0, 3), (0, 9), rights={(0, 0): b"r"}))))
    # 0x10 is 16, and not 10.
    for name, read, flows in [("10-of-10", 10, [b"flow 10 0", b"flow 0x10 0"]), ("10-of-16", 16, [b"flow 0x10 0"]), ("a-of-16", 16, [b"flow 0xa 0", b"flow 16 0"])]:
        rights = [b"right 0 %d r" % read, b"right 0 17 r"]
        add("hex-stray-%s" % name, small(many_segments(18), [b"partition 0 17 0"], rights, [*flows, b"flow 17 0"]))
    # The first and the last of 32 segments.
    for save, code, sources in [(31, 30, (30, 0, 29)), (0, 31, (31, 1, 30)), (31, 0, (0, 30))]:
        for s in sources:
            flows = [b"flow %d %d" % (f, save) for f in sorted({code, s})]
            add("ids-%d-into-%d-code-%d" % (s, save, code), small(many_segments(32), [b"partition 0 %d %d" % (code, save)], [b"right 0 %d r" % code], flows))


def add_sources():
    add_strays()
    add_order()
    add_mended()
    add_eight()
    add_numbers()

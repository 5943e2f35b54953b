#!/usr/bin/env python3
"""Policy texts at the edges of refusals 1 to 8 and 16, for the test program crates/texts.

    edge_texts.py ROOT     writes crates/texts/data/cases and crates/texts/stdout below the repository ROOT

A case is its name, filled up with spaces to 40 bytes, its length in 7 digits, a line end, and then that many bytes. The expected answers come from policy_reference.py.
edge_sources.py has the texts with flow lines into save segments that refusal 16 is about, edge_lines.py those that fail in one clause alone,
edge_policies.py those of the folder policies/.
"""
import os
import sys

from edge_lines import add_lines
from edge_policies import add_policies
from edge_sources import add_sources
from policy_reference import read
from text_parts import CASES, DEMO, add, demo, hexed, longest, many_segments, small, text


def padded(n):
    """The longest text, and then bytes that end it on a bad line, n bytes in all."""
    body = text(*longest())
    rest = n - len(body)
    return body + (b"slot\t7\t1\n" * (rest // 9 + 1))[:rest]


add("demonstration", demo())
add("least", small())

# 1, and input of any kind
add("bytes-16384", padded(16384))
add("bytes-16385", padded(16385))
add("line-ends-16384", b"\n" * 16384)
add("line-ends-16385", b"\n" * 16385)
add("longest", text(*longest()))
add("empty", b"")
add("all-bytes", bytes(range(256)))

# 2: word, fields, numbers, letters, line end
add("one-line-end", b"\n")
add("empty-first-line", b"\n" + demo())
add("empty-last-line", demo() + b"\n")
add("no-last-line-end", demo()[:-1])
add("one-byte", b"s")
add("carriage-return", demo().replace(b"\n", b"\r\n"))
add("spaces", demo().replace(b"\t", b" "))
add("double-tab", demo((1, b"segment 1  64 44")))
add("leading-tab", demo((1, b" segment 1 64 44")))
add("trailing-tab", demo((1, b"segment 1 64 44 ")))
add("word-unknown", demo((0, b"segments 0 0 64")))
add("word-short", demo((0, b"segmen 0 0 64")))
add("word-capital", demo((0, b"Segment 0 0 64")))
add("word-alone", demo((0, b"segment")))
add("field-missing", demo((0, b"segment 0 0")))
add("field-more", demo((0, b"segment 0 0 64 0")))
add("flow-field-more", demo((11, b"flow 0 1 1")))
add("slot-field-missing", demo((16, b"slot 0")))
add("number-empty", demo((0, b"segment 0  64")))
add("number-leading-zero", demo((0, b"segment 0 00 64")))
add("number-leading-zero-2", demo((4, b"segment 4 0256 16")))
add("number-plus", demo((0, b"segment 0 +0 64")))
add("number-minus", demo((0, b"segment 0 -0 64")))
add("number-letter", demo((0, b"segment 0 0 6a")))
add("number-hex", demo((0, b"segment 0 0x0 64")))
add("number-below-0", demo((0, b"segment 0 0 6/")))
add("number-above-9", demo((0, b"segment 0 0 6:")))
add("number-five-digits", demo((4, b"segment 4 16368 16")))
add("number-99999", demo((4, b"segment 4 99999 16")))
add("number-six-digits", demo((4, b"segment 4 100000 16")))
add("number-high-byte", demo((0, b"segment 0 0 6\xb4")))
add("letters-empty", demo((7, b"right 0 0 ")))
add("letters-wr", demo((7, b"right 0 0 wr")))
add("letters-x", demo((7, b"right 0 0 x")))
add("letters-capital", demo((7, b"right 0 0 R")))
add("letters-rr", demo((7, b"right 0 0 rr")))
add("letters-rwr", demo((7, b"right 0 0 rwr")))
add("letters-number", demo((7, b"right 0 0 1")))
add("nul-byte", demo((0, b"segment 0 0 64\x00")))

# 3: kind, id, pair
add("kind-segment-late", demo((6, b"segment 5 300 16")))
add("kind-partition-late", demo((8, b"partition 2 0 1")))
add("kind-right-late", demo((12, b"right 1 4 w")))
add("kind-flow-late", demo((17, b"flow 4 1")))
add("kind-slot-first", text(b"slot 0 1"))
add("kind-flow-first", text(b"flow 0 1"))
add("kind-right-first", text(b"right 0 0 r"))
add("kind-partition-first", text(b"partition 0 0 1"))
add("id-segment-gap", demo((1, b"segment 2 64 44")))
add("id-segment-same", demo((1, b"segment 0 64 44")))
add("id-segment-not-0", text(b"segment 1 0 64"))
add("id-partition-gap", demo((6, b"partition 2 2 3")))
add("id-partition-same", demo((6, b"partition 0 2 3")))
add("pair-right-same", demo((8, b"right 0 0 w")))
add("pair-right-falls", demo((8, b"right 0 4 w"), (9, b"right 0 2 r")))
add("pair-right-first-falls", demo((10, b"right 0 4 r")))
add("pair-flow-same", demo((12, b"flow 0 1")))
add("pair-flow-falls", demo((12, b"flow 0 0")))
add("pair-flow-first-falls", demo((14, b"flow 0 9")))
add("pair-flow-after-right", demo((10, b"right 1 4 r"), (11, b"flow 0 1")))

# 4: counts, ranges, names
add("segments-32", text(*many_segments(32)))
add("segments-33", text(*many_segments(33)))
add("segments-33-id-wrong", text(*many_segments(32), b"segment 33 2000 44"))
add("length-0", demo((4, b"segment 4 256 0")))
add("length-1", demo((4, b"segment 4 256 1")))
add("length-4096", demo((4, b"segment 4 256 4096")))
add("length-4097", demo((4, b"segment 4 256 4097")))
add("end-16384", demo((4, b"segment 4 12288 4096")))
add("end-16385", demo((4, b"segment 4 12289 4096")))
add("base-16383", demo((4, b"segment 4 16383 1")))
add("base-16384", demo((4, b"segment 4 16384 1")))
add("partitions-8", text(*many_segments(9), *[b"partition %d 8 %d" % (p, p) for p in range(8)]))
add("partitions-9", text(*many_segments(10), *[b"partition %d 9 %d" % (p, p) for p in range(9)]))
add("partition-code-none", demo((6, b"partition 1 5 3")))
add("partition-save-none", demo((6, b"partition 1 2 5")))
add("right-partition-none", demo((10, b"right 2 4 r")))
add("right-segment-none", demo((10, b"right 1 5 r")))
add("flow-from-none", demo((15, b"flow 5 3")))
add("flow-to-none", demo((15, b"flow 4 5")))
add("slot-partition-none", demo((17, b"slot 2 2")))
add("ticks-0", demo((17, b"slot 1 0")))
add("ticks-1", demo((17, b"slot 1 1")))
add("ticks-1000", demo((17, b"slot 1 1000")))
add("ticks-1001", demo((17, b"slot 1 1001")))
add("slots-32", small(slots=[b"slot 0 1000"] * 32))
add("slots-33", small(slots=[b"slot 0 1"] * 33))

# 5: overlap, save, right on save, flow to itself
add("overlap-by-one", demo((1, b"segment 1 63 44")))
add("overlap-touching", demo((4, b"segment 4 236 16")))
add("overlap-by-one-after", demo((4, b"segment 4 235 16")))
add("overlap-inside", demo((4, b"segment 4 140 4")))
add("overlap-around", demo((4, b"segment 4 100 200")))
add("overlap-same", demo((4, b"segment 4 128 64")))
add("overlap-before", demo((4, b"segment 4 112 16")))
add("overlap-before-by-one", demo((4, b"segment 4 112 17")))
add("save-43", demo((3, b"segment 3 192 43")))
add("save-45", demo((3, b"segment 3 192 45")))
add("save-twice", demo((6, b"partition 1 2 1")))
add("save-is-own-code", demo((6, b"partition 1 3 3")))
add("save-is-earlier-code", text(b"segment 0 0 44", b"segment 1 44 44", b"partition 0 0 1", b"partition 1 0 0"))
add("code-is-earlier-save", demo((6, b"partition 1 1 3")))
add("code-shared", demo((6, b"partition 1 0 3")))
add("right-on-save", demo((8, b"right 0 1 w")))
add("right-on-other-save", demo((8, b"right 0 3 r")))
add("flow-to-itself", demo((12, b"flow 1 1")))
add("unsaved-44", small(segments=[b"segment 0 0 64", b"segment 1 64 44", b"segment 2 108 44"], rights=[b"right 0 0 r", b"right 0 2 r"], flows=[b"flow 0 1", b"flow 2 1"]))

# 6, 7, 8, 16
add("no-slot", text(*DEMO[:16]))
add("only-segments", text(*DEMO[:5]))
add("no-right", small(rights=[]))
add("code-w", small(rights=[b"right 0 0 w"], flows=[b"flow 0 1", b"flow 1 0"]))
add("code-rw", small(rights=[b"right 0 0 rw"], flows=[b"flow 0 1", b"flow 1 0"]))
add("second-code-unread", demo((9, b"right 1 2 w")))
add("no-flow", small(flows=[]))
add("flow-code-save-missing", demo((11, None)))
add("flow-code-target-missing", demo((12, None)))
add("flow-save-target-missing", demo((13, None)))
add("flow-other-missing", demo((15, None)))
add("flow-more", demo((-1 - 15, b"flow 4 0")))
add("flow-more-into-save", demo((-1 - 15, b"flow 4 1")))
add("flow-w-alone", small(segments=[b"segment 0 0 64", b"segment 1 64 44", b"segment 2 200 8"], rights=[b"right 0 0 r", b"right 0 2 w"], flows=[b"flow 0 1", b"flow 0 2", b"flow 1 2"]))
add("flow-rw", small(segments=[b"segment 0 0 64", b"segment 1 64 44", b"segment 2 200 8"], rights=[b"right 0 0 r", b"right 0 2 rw"], flows=[b"flow 0 1", b"flow 0 2", b"flow 1 2"]))
add("flow-rw-all", small(segments=[b"segment 0 0 64", b"segment 1 64 44", b"segment 2 200 8"], rights=[b"right 0 0 r", b"right 0 2 rw"], flows=[b"flow 0 1", b"flow 0 2", b"flow 1 2", b"flow 2 1"]))

# 8 by target. Segment 0 and 8 are written by partitions 0 and 1, 7 by partition 2 alone; 1, 3, 5 are code, 2, 4, 6 save.
TARGETS = [b"segment 0 0 16", b"segment 1 16 16", b"segment 2 32 44", b"segment 3 76 16", b"segment 4 92 44", b"segment 5 136 16", b"segment 6 152 44", b"segment 7 196 16", b"segment 8 212 16"]
SHARING = [b"partition 0 1 2", b"partition 1 3 4", b"partition 2 5 6"]
SHARED = [b"right 0 0 w", b"right 0 1 r", b"right 0 7 r", b"right 0 8 w", b"right 1 0 rw", b"right 1 3 r", b"right 1 8 w", b"right 2 5 r", b"right 2 7 w"]
ASKED = [
    (0, 4), (0, 8), (1, 0), (1, 2), (1, 8), (2, 0), (2, 8), (3, 0), (3, 4), (3, 8), (4, 0), (4, 8), (5, 6), (5, 7), (6, 7), (7, 0), (7, 2), (7, 8),
]


def without(*missing):
    """The policy above with these flow lines left out of those that rule 8 asks for."""
    return small(TARGETS, SHARING, SHARED, [b"flow %d %d" % f for f in ASKED if f not in missing])


add("target-none-missing", without())
for line in ASKED:
    add("target-%d-missing-%d" % (line[1], line[0]), without(line))
add("target-first-missing-all", without(*[f for f in ASKED if f[1] == 0]))
add("target-last-missing-all", without(*[f for f in ASKED if f[1] == 8]))
add("target-first-and-last", without((1, 0), (3, 8)))
add("target-several", without((7, 0), (1, 2), (0, 4), (6, 7), (4, 8)))
add("target-save-of-each", without((1, 2), (3, 4), (5, 6)))
add("target-of-two-partitions", without((1, 8), (3, 8)))
add("target-of-last-partition", without((5, 7), (6, 7)))
add("target-all-missing", without(*ASKED))

# two rules at once: the order
add("2-before-3", demo((6, b"segment 5 300 16 1")))
add("2-before-4", demo((4, b"segment 4 256 04097")))
add("3-before-4", demo((1, b"segment 2 64 4097")))
add("3-before-5", demo((1, b"segment 2 0 44")))
add("3-before-4-pair", demo((10, b"right 0 99 w")))
add("4-before-5", demo((1, b"segment 1 63 5000")))
add("4-before-5-flow", demo((15, b"flow 9 9")))
add("4-before-5-partition", demo((6, b"partition 1 9 9")))
add("line-before-rule", demo((1, b"segment 1 63 44"), (3, b"x")))
add("first-line-wins", demo((0, b"segment 0 0 0"), (17, b"slot")))
add("5-before-6", text(*DEMO[:4], b"segment 4 0 16"))
add("6-before-7", text(*DEMO[:7]))
add("7-before-8", small(rights=[], flows=[]))
add("1-before-2", b"x" * 16385)

# 2 to 5 with hexadecimal numbers: each form in each place where a number stands. A place is a line and a field of this policy.
LINES = [b"segment 0 0 64", b"segment 1 64 44", b"segment 2 8192 16", b"partition 0 0 1", b"right 0 0 r", b"flow 0 1", b"slot 0 1"]
PLACES = {
    "segment-id": (1, 1), "base": (2, 2), "length": (2, 3), "partition-id": (3, 1), "code": (3, 2), "save": (3, 3),
    "right-partition": (4, 1), "right-segment": (4, 2), "from": (5, 1), "to": (5, 2), "slot-partition": (6, 1), "ticks": (6, 2),
}
VALUES = [b"0x0", b"0x1", b"0xa", b"0xf", b"0x10", b"0xff", b"0x100", b"0x3e8", b"0x3e9", b"0xffff"]
BAD = {
    "0x": b"0x", "0x00": b"0x00", "0x01": b"0x01", "0x0ffff": b"0x0ffff", "0x10000": b"0x10000", "0XA": b"0XA", "0xA": b"0xA", "0xG": b"0xG", "0xg": b"0xg",
    "x1": b"x1", "00x1": b"00x1", "0x-space-1": b"0x 1", "0x-tab-1": b"0x\t1", "0x1g": b"0x1g", "0x1z": b"0x1z", "1a": b"1a", "ff": b"ff", "r": b"r",
    "below-0": b"0x/", "above-9": b"0x:", "below-a": b"0x`", "0xfg": b"0xfg", "0x1-return": b"0x1\r", "0x1-space": b"0x1 ", "0x0x1": b"0x0x1",
    "0x-1": b"0x-1", "0x+1": b"0x+1",
}
# In one place: what differs from the above by little.
ALSO_BAD = {
    "0X": b"0X", "0X1": b"0X1", "0x000": b"0x000", "0x0001": b"0x0001", "0x00000": b"0x00000", "0xabcde": b"0xabcde", "0xfffff": b"0xfffff", "0x100000001": b"0x100000001",
    "0xaF": b"0xaF", "0xFa": b"0xFa", "0x1A": b"0x1A", "0xFFFF": b"0xFFFF", "below-capital-a": b"0x@", "x": b"x", "0xx1": b"0xx1", "0x1x": b"0x1x", "1x1": b"1x1",
    "1x": b"1x", "10x1": b"10x1", "plus-0x1": b"+0x1", "minus-0x1": b"-0x1", "space-0x1": b" 0x1", "0-space-x1": b"0 x1", "a": b"a", "0a": b"0a", "a0": b"a0",
    "1h": b"1h", "0b1": b"0b1", "0o1": b"0o1", "dollar": b"$1", "hash": b"#1", "0x1-nul": b"0x1\x00", "0x-nul": b"0x\x00", "high-byte": b"0x\xb1", "high-x": b"0\xf81",
    "point": b"0x1.", "underscore": b"0x1_0", "0x1-tab": b"0x1\t",
}


def placed(place, form):
    """The policy above with a field replaced by bytes as they are."""
    fields = [line.split(b" ") for line in LINES]
    line, field = PLACES[place]
    fields[line][field] = form
    return b"".join(b"\t".join(f) + b"\n" for f in fields)


for place in PLACES:
    for v in VALUES:
        add("hex-%s-%s" % (place, v.decode()), placed(place, v))
    for name, form in BAD.items():
        add("hex-%s-bad-%s" % (place, name), placed(place, form))
for name, form in ALSO_BAD.items():
    add("hex-bad-%s" % name, placed("base", form))
for n, form in enumerate([b"0x1", b"0x3", b"0xr", b"r0x1", b"0x"]):
    add("hex-letters-%d" % (n + 1), small(rights=[b"right 0 0 " + form]))
add("hex-word", small(slots=[b"0x1 0 1"]))
add("hex-word-number", small(slots=[b"slot0x0 1"]))
for form in (b"0x", b"0x1", b"0xa", b"0x1234", b"0x12345", b"0X"):
    add("hex-no-line-end-%s" % form.decode(), small(slots=[b"slot 0 " + form])[:-1])
add("hex-text-0x", b"0x")
add("hex-text-0x-line", b"0x\n")


def filled(n):
    """All numbers in hexadecimal, n bytes in all: fewer rights than there is room for, each gone with the line that it allows into the save segment, and some
    r for rw."""
    lines = hexed(longest())
    spare = [(p, s) for p in range(8) for s in range(8, 31)]
    over = len(text(*lines)) - n
    while over >= 32:
        p, s = spare.pop()
        for line in (b"right 0x%x 0x%x rw" % (p, s), b"flow 0x%x 0x%x" % (s, p)):
            lines.remove(line)
            over -= len(line) + 1
    for p, s in spare[:over]:
        lines[lines.index(b"right 0x%x 0x%x rw" % (p, s))] = b"right 0x%x 0x%x r" % (p, s)
    return text(*lines)


# 1 counts bytes: in decimal both of these are shorter, and accepted.
add("hex-bytes-16384", filled(16384))
add("hex-bytes-16385", filled(16385))

# Several texts of one record.
add("hex-all", text(*hexed(DEMO)))
add("hex-every-second-field", text(*hexed(DEMO, lambda line, field: field % 2 == 0)))
add("hex-every-second-line", text(*hexed(DEMO, lambda line, field: line % 2 == 0)))
add("hex-mixed", text(*hexed(DEMO, lambda line, field: (line + field) % 2 == 0)))
add("hex-bases", text(*hexed(DEMO, lambda line, field: line < 5 and field == 2)))
add("hex-all-but-last", text(*hexed(DEMO, lambda line, field: line < 17)))
add("hex-last-alone", text(*hexed(DEMO, lambda line, field: line == 17 and field == 2)))
add("hex-all-no-last-line-end", text(*hexed(DEMO))[:-1])
add("hex-all-flow-missing", text(*hexed(DEMO[:13] + DEMO[14:])))
add("hex-all-code-unread", text(*hexed(DEMO[:7] + [b"right 0 0 w"] + DEMO[8:])))
add("hex-all-no-slot", text(*hexed(DEMO[:16])))
HIGH = many_segments(32)[:-1] + [b"segment 31 12288 4096", b"partition 0 31 16", b"right 0 10 rw", b"right 0 31 r", b"flow 10 16", b"flow 16 10", b"flow 31 10", b"flow 31 16"]
add("hex-high-ids", text(*hexed(HIGH + [b"slot 0 1000"] * 32)))
add("hex-high-ids-decimal-rights", text(*hexed(HIGH + [b"slot 0 999"], lambda line, field: not 33 <= line < 36)))
add("hex-segments-33", text(*hexed(many_segments(33))))
add("hex-partitions-8", text(*hexed(many_segments(17) + [b"partition %d 8 %d" % (p, 9 + p) for p in range(8)])))
add("hex-partitions-9", text(*hexed(many_segments(18) + [b"partition %d 8 %d" % (p, 9 + p) for p in range(9)])))
add("hex-slots-33", small(slots=[b"slot 0x0 0x1"] * 33))

# 3
add("hex-id-gap", demo((1, b"segment 0x2 64 44")))
add("hex-id-same", demo((1, b"segment 0x0 64 44")))
add("hex-id-not-0", text(b"segment 0x1 0x0 0x40"))
add("hex-id-partition-gap", demo((6, b"partition 0x2 2 3")))
add("hex-id-digits-as-decimal", text(*many_segments(10), b"segment 0x10 500 44"))
add("hex-id-10", text(*many_segments(10), b"segment 0xa 500 44"))
add("hex-id-16", text(*many_segments(16), b"segment 0x10 800 44"))
add("hex-pair-right-same", demo((8, b"right 0x0 0x0 w")))
add("hex-pair-right-same-both-hex", demo((7, b"right 0x0 0x0 r"), (8, b"right 0x0 0x0 w")))
add("hex-pair-right-falls", demo((9, b"right 0x0 0x2 r")))
add("hex-pair-right-first-falls", demo((10, b"right 0x0 0x4 r")))
add("hex-pair-flow-same", demo((12, b"flow 0x0 0x1")))
add("hex-pair-flow-same-then-decimal", demo((11, b"flow 0x0 0x1"), (12, b"flow 0 1")))
add("hex-pair-flow-falls", demo((13, b"flow 0x0 0x3")))
add("hex-pair-flow-first-falls", demo((15, b"flow 0x1 0x4")))
add("hex-pair-ascends", demo((12, b"flow 0x0 4"), (13, b"flow 1 0x4")))
# 9 comes before 0xa and 0x10 after 0xf, though not by their bytes.
WIDE = many_segments(18) + [b"partition 0 17 0", b"right 0 17 r"]
add("hex-pair-9-a", text(*WIDE, b"flow 1 9", b"flow 1 0xa", b"flow 0x1 0xf", b"flow 0x1 0x10", b"flow 9 2", b"flow 0xa 2", b"flow 0x10 2", b"flow 17 0", b"slot 0 1"))
add("hex-pair-10-f", text(*WIDE, b"flow 1 0x10", b"flow 1 0xf"))
add("hex-pair-10-decimal-15", text(*WIDE, b"flow 1 0x10", b"flow 1 15"))
add("hex-pair-16-decimal", text(*WIDE, b"flow 1 0x10", b"flow 1 16"))
add("hex-pair-first-10-f", text(*WIDE, b"flow 0x10 1", b"flow 0xf 2"))

# 4
add("hex-length-4096", demo((4, b"segment 4 256 0x1000")))
add("hex-length-4097", demo((4, b"segment 4 256 0x1001")))
add("hex-length-0", demo((4, b"segment 4 256 0x0")))
add("hex-end-16384", demo((4, b"segment 4 0x3000 0x1000")))
add("hex-end-16385", demo((4, b"segment 4 0x3001 0x1000")))
add("hex-end-16384-mixed", demo((4, b"segment 4 0x3fff 1")))
add("hex-end-16385-mixed", demo((4, b"segment 4 16383 0x2")))
add("hex-base-16384", demo((4, b"segment 4 0x4000 0x1")))
add("hex-base-65535", demo((4, b"segment 4 0xffff 0xffff")))
add("hex-base-65280-length-256", demo((4, b"segment 4 0xff00 0x100")))
add("hex-ticks-1000", demo((17, b"slot 0x1 0x3e8")))
add("hex-ticks-1001", demo((17, b"slot 0x1 0x3e9")))
add("hex-ticks-0", demo((17, b"slot 0x1 0x0")))
add("hex-code-none", demo((6, b"partition 1 0x5 3")))
add("hex-save-none", demo((6, b"partition 1 2 0x5")))
add("hex-right-partition-none", demo((10, b"right 0x2 4 r")))
add("hex-right-segment-none", demo((10, b"right 1 0x5 r")))
add("hex-from-none", demo((15, b"flow 0x5 3")))
add("hex-to-none", demo((15, b"flow 4 0x5")))
add("hex-slot-partition-none", demo((17, b"slot 0x2 2")))

# 5
add("hex-overlap-by-one", demo((1, b"segment 1 0x3f 0x2c")))
add("hex-overlap-touching", demo((4, b"segment 4 0xec 0x10")))
add("hex-overlap-by-one-after", demo((4, b"segment 4 0xeb 0x10")))
add("hex-overlap-before", demo((4, b"segment 4 0x70 0x10")))
add("hex-overlap-before-by-one", demo((4, b"segment 4 0x70 0x11")))
add("hex-save-43", demo((3, b"segment 3 192 0x2b")))
add("hex-save-44", demo((3, b"segment 3 192 0x2c")))
add("hex-save-45", demo((3, b"segment 3 192 0x2d")))
add("hex-save-44-as-hex", demo((3, b"segment 3 4096 0x44")))
add("hex-save-twice", demo((6, b"partition 1 2 0x1")))
add("hex-save-is-own-code", demo((6, b"partition 1 3 0x3")))
add("hex-code-is-own-save", demo((6, b"partition 1 0x3 3")))
add("hex-code-is-earlier-save", demo((6, b"partition 1 0x1 3")))
add("hex-right-on-save", demo((8, b"right 0 0x1 w")))
add("hex-flow-to-itself", demo((12, b"flow 1 0x1")))
add("hex-flow-to-itself-from-hex", demo((12, b"flow 0x1 1")))
add("hex-flow-to-itself-both", demo((12, b"flow 0x1 0x1")))

# the order of the rules
add("hex-2-before-3", demo((6, b"segment 5 0x12345 16")))
add("hex-2-before-4", demo((4, b"segment 4 256 0x01001")))
add("hex-2-before-5", demo((1, b"segment 1 0x3F 44")))
add("hex-3-before-4", demo((1, b"segment 0x2 64 0x1001")))
add("hex-3-before-5", demo((1, b"segment 0x2 0x0 44")))
add("hex-4-before-5", demo((1, b"segment 1 0x3f 0x1388")))
add("hex-first-line-wins", demo((0, b"segment 0 0 0x0"), (17, b"slot 1 0X2")))

add_sources()
add_lines()
add_policies()


def main(root):
    folder = os.path.join(root, "crates", "texts")
    os.makedirs(os.path.join(folder, "data"), exist_ok=True)
    assert len({name for name, _ in CASES}) == len(CASES) and all(len(name) < 40 for name, _ in CASES)
    with open(os.path.join(folder, "data", "cases"), "wb") as cases, open(os.path.join(folder, "stdout"), "wb") as out:
        for name, t in CASES:
            cases.write(name.encode().ljust(40) + b"%07d\n" % len(t) + t)
            number, line, _ = read(t)
            out.write(b"%s\t%d\t%d\n" % (name.encode(), number, line))


if __name__ == "__main__":
    main(sys.argv[1])

#!/usr/bin/env python3
"""Calls of Start, Pend and Run at the edges of the rules, for the test program crates/runs.

    edge_runs.py ROOT     writes crates/runs/data/scenarios and crates/runs/stdout below the repository ROOT

scenarios.py has the form of both files; the expected answers come from machine_reference.py, reach_reference.py and sheet_reference.py. edge_words.py has
the calls that move four bytes at once, edge_counts.py those about the count of ticks, edge_reach.py those that ask who can reach whom, edge_sheet.py those
that ask for the schedule sheet, edge_clauses.py those that fix one clause each.
"""
import os
import sys

from edge_parts import ADD, AND, BACK, HALT, JUMP, LISTEN, LOAD, SET, SHIFT, STORE, SUB, WAIT, XOR
from edge_parts import BENCH, DEMO, FULL, HIGH, SAVE, SCENARIOS, SELF, SHARED, TOP, add, bench, code, policy, save
from edge_clauses import add_clauses
from edge_counts import add_counts
from edge_reach import add_reach
from edge_sheet import add_sheets
from edge_words import add_words
from scenarios import write_all

# Partition 1 reads what partition 0 writes, in a segment of one byte, and writes another that nobody reads.
HANDED = policy(
    [(0, 64), (64, 44), (128, 64), (192, 44), (256, 1), (257, 1), (258, 1)],
    [(0, 1), (2, 3)],
    [(0, 0, "r"), (0, 4, "w"), (0, 6, "r"), (1, 2, "r"), (1, 4, "r"), (1, 5, "w")],
    [(0, 2), (1, 3), (0, 1)],
)
# Code of 3 bytes, and of 4.
SHORT = policy([(0, 3), (4, 44), (50, 4), (60, 44)], [(0, 1), (2, 3)], [(0, 0, "r"), (1, 2, "r")], [(0, 1), (1, 1)])
# Segments 0 and 8 are written by partitions 0 and 1, 7 by partition 2 alone; 1, 3, 5 are code, 2, 4, 6 save.
SHARING = policy(
    [(0, 16), (16, 16), (32, 44), (76, 16), (92, 44), (136, 16), (152, 44), (196, 16), (212, 16)],
    [(1, 2), (3, 4), (5, 6)],
    [(0, 0, "w"), (0, 1, "r"), (0, 7, "r"), (0, 8, "w"), (1, 0, "rw"), (1, 3, "r"), (1, 8, "w"), (2, 5, "r"), (2, 7, "w")],
    [(0, 1), (1, 1), (2, 1)],
)
# Its flow lines, in the order of rule 8's targets.
FLOWS = sorted((tuple(int(n) for n in line.split(b"\t")[1:]) for line in SHARING.split(b"\n") if line.startswith(b"flow")), key=lambda f: f[::-1])
# Partitions 0, 1, 2 have the code segments 4, 0, 7 and the save segments 3, 6, 1; partition 1 has no slot. All write 2, which nobody reads. 5, 8, 9 are
# read by partitions 0, 1, 2 alone and written by 1, 2, 0. 10 has no right, nor has 11, which is as long as a save segment.
SOURCES = policy(
    [(64 * i, 44 if i in (1, 3, 6, 11) else 16) for i in range(12)],
    [(4, 3), (0, 6), (7, 1)],
    [(0, 2, "w"), (0, 4, "r"), (0, 5, "r"), (0, 9, "w"), (1, 0, "r"), (1, 2, "w"), (1, 5, "w"), (1, 8, "r"), (2, 2, "w"), (2, 7, "r"), (2, 8, "w"), (2, 9, "r")],
    [(0, 2), (2, 1)],
)
# What its partition may read, by save segment.
READ = {3: (3, 4, 5), 6: (0, 6, 8), 1: (1, 7, 9)}

# Start, Pend and Run where they act.
K5 = code(SET(0, 65), STORE(0, 1, 4), HALT)
COUNT = code(ADD(0, 0, 1), JUMP(1, 0))
add("demonstration", DEMO).write(0, K5).start().run(3).look(64, 44).look(192, 44).look(256, 16)
add("start-clears", DEMO).start().look(60, 52).look(188, 52)
add("start-keeps-44-bytes", BENCH).start().look(600, 44)
add("start-full", FULL).start()
add("start-again", DEMO).write(0, K5).start().run(4).start().look(64, 44).run(1).start().run(0)
add("no-start", DEMO, fill=1).run(5)
add("zero-memory", DEMO, fill=0).write(0, bytes(300)).start().run(100)
add("line-7", DEMO).start().pend(0, 7).pend(1, 7).look(100, 1).look(228, 1)
add("line-8", DEMO).start().pend(0, 8).pend(1, 8).pend(0, 255).pend(0, 256).pend(0, TOP).look(100, 1)
add("lines-all", DEMO).start().pend(1, 3).pend(1, 0).pend(1, 3).look(228, 1).pend(1, 7).pend(1, 6).pend(1, 5).pend(1, 4).pend(1, 2).pend(1, 1).look(192, 44)
add("lines-kept", DEMO).pend(0, 0).pend(0, 4).pend(1, 2).look(64, 44).look(192, 44)
add("ticks-10000", DEMO).write(0, COUNT).start().write(64, save({1: 1})).run(10000).look(64, 44).run(1)
add("ticks-10001", DEMO).write(0, K5).start().run(10001).run(TOP).look(64, 44).run(10000)
s = add("several-rounds", DEMO).write(0, COUNT).write(128, COUNT).start().write(68, [1]).write(196, [1])
s.run(5).run(7).run(23).look(64, 44).look(192, 44)
add("one-run-or-many", DEMO).write(0, COUNT).start().write(68, [1]).run(1).run(2).run(0).run(3).run(4).look(64, 44)

# Refusals 9 to 14, and their order.
for size in (0, 1, 16383, 16385, 16400):
    add("memory-%d" % size, DEMO, size).start().pend(0, 0).run(1).at(1, 1).run(0).pend(2, 8).at(2, 9).run(10001).at(0, 1).start().run(1)
add("memory-16383-unsound", DEMO, 16383).change("slots", 0, 0).start().pend(0, 0).run(1)
add("partition-none", DEMO).start().pend(2, 0).pend(8, 0).pend(255, 0).pend(256, 0).pend(TOP, 7).pend(2, 8).pend(TOP, TOP).pend(1, 0)
add("refused-between", DEMO).write(0, K5).start().pend(2, 0).run(1).pend(0, 8).run(1).run(10001).run(1).at(2, 0).run(1).pend(0, 3).at(1, 0).run(2).look(64, 44)
PLACES = [
    (2, 0, (0, 1, 10001)), (1, 2, (0, 1)), (0, 3, (0, 1, 10001)), (0, 2, (0, 1, 1)), (1, 1, (0, 1, 1)), (1, 0, (2, 5)), (1, 1, (10001, 0)),
    (32, 0, (1,)), (255, 0, (1,)), (256, 0, (1,)), (TOP, 0, (1,)), (0, TOP, (1,)), (0, 65536, (1,)), (TOP, TOP, (0, TOP)),
]
for slot, used, ns in PLACES:
    s = add("place-%d-%d" % (slot, used) + ("-n-%d" % ns[0] if ns[0] > 1 else ""), DEMO).start().at(slot, used)
    for n in ns:
        s.run(n)
add("place-last-full", FULL).start().at(31, 999).run(1).at(31, 1000).run(1).at(32, 0).run(1).at(30, 110).run(0).run(1).run(1001).at(31, 998).run(3)
add("place-one-slot", HIGH).start().run(1).at(0, 1).run(1).at(1, 0).run(1)

# 10: records that no accepted text gives, and some that one gives, each one change away from the demonstration's.
CHANGES = [
    ("segments", 0, (0, 4, 6, 32, 33, 255)), ("partitions", 0, (0, 1, 3, 8, 9, 255)), ("slots", 0, (0, 1, 3, 32, 33, 255)),
    ("base", 1, (63, 65, 20, 84, 85)), ("base", 4, (16368, 16369, 65535)), ("base", 5, (1,)), ("base", 31, (1,)),
    ("size", 4, (0, 1, 4096, 4097, 65535)), ("size", 1, (43, 45)), ("size", 5, (1,)), ("size", 31, (1,)),
    ("code", 1, (0, 1, 3, 5, 255)), ("code", 2, (1,)), ("code", 7, (1,)), ("save", 1, (1, 2, 0, 4, 5, 255)), ("save", 2, (1,)), ("save", 7, (1,)),
    ("owner", 1, (0, 2, 255)), ("owner", 2, (1,)), ("owner", 31, (1,)), ("ticks", 0, (0, 1, 1000, 1001, 65535)), ("ticks", 2, (1,)), ("ticks", 31, (1,)),
    ("unused", 0, (1, 2, 128, 255, 0)),
]
for field, index, values in CHANGES:
    s = add("record-%s-%d" % (field, index), DEMO).write(0, K5)
    for v in values:
        s.change(field, index, v).start().pend(1, 0).run(2)

# Masks of the demonstration with bits turned, and back after each. Segments 1 and 3 are save segments, 5 is the first that isn't there.
TURNS = [
    # The code segment, a segment that it writes, save segments, past the last segment.
    ("reads", 0, [(0,), (4,), (2,), (1,), (3,), (5,), (31,), (0, 5), range(32)]), ("reads", 1, [(2,), (4,), (0,), (3,), (1,), (30, 31)]),
    ("writes", 0, [(4,), (0,), (2,), (1,), (3,), (5,), (31,), range(32)]), ("writes", 1, [(4,), (2,), (1,), (3,), (6,)]),
    # Partitions that aren't there.
    ("reads", 2, [(0,), (31,), range(32)]), ("reads", 7, [(0,), (4,), (31,)]), ("writes", 2, [(0,), (4,)]), ("writes", 7, [(4,), (31,), range(32)]),
    # A line missing, one more (stray where it goes into 1 or 3), from a segment to itself, from a segment that isn't there.
    ("sources", 0, [(1,), (4,), (1, 2, 3, 4), (0,), (5,), (31,), range(32)]), ("sources", 1, [(0,), (4,), (1,), (0, 1), (5,)]),
    ("sources", 3, [(2,), (4,), (2, 4), (0,), (3,), (16,)]), ("sources", 4, [(0,), (1,), (0, 1), (2,), (2, 3), (4,), (5,), (31,)]),
    # Segments that aren't there.
    ("sources", 5, [(0,), (5,), range(5)]), ("sources", 31, [(0,), (31,), range(32)]),
]
for field, index, all_bits in TURNS:
    s = add("record-%s-%d" % (field, index), DEMO).write(0, K5)
    for bits in all_bits:
        s.turn(field, index, *bits).start().pend(1, 0).run(2).turn(field, index, *bits)
    s.start()
# All 32 segments are there, so bit 31 is one as any other: partition 7 writes segment 31, partition 6 nothing of it.
s = add("record-bit-31", FULL).write(4096 + 40 * 7, code(LOAD(0, 1, 31), LOAD(2, 1, 30))).start()
for index in (6, 7):
    s.turn("reads", index, 31).start().turn("reads", index, 31).turn("writes", index, 31).start().turn("writes", index, 31)
# Nobody reads it, so it is no source of the first or the last save segment.
for t in (0, 7):
    s.turn("sources", t, 31).start().turn("sources", t, 31)
s.turn("reads", 7, 31).at(31, 0)
for t in (7, 23):
    s.run(1).turn("sources", t, 31)
s.run(1).run(1).look(100 + 44 * 7, 44).turn("sources", 31, 31).run(1).turn("sources", 31, 31).run(0)
# Two bits turned at once: a right moved to another segment, a line turned round.
add("record-moved", DEMO).turn("reads", 0, 0, 2).start().turn("reads", 0, 0, 2).turn("sources", 1, 0).turn("sources", 0, 1).start()
# Rule 8 by target: each line that it asks for taken away and put back, then lines into several targets, one after the other.
s = add("record-targets", SHARING)
for a, b in FLOWS:
    s.turn("sources", b, a).start().turn("sources", b, a).start()
for a, b in FLOWS:
    s.turn("sources", b, a).start()
for a, b in FLOWS:
    s.turn("sources", b, a).start()
# A stray line into the save segment of partition 0, 1 and 2, from each segment that it can't read. Each call would show in memory if it acted: partition 0
# is ready, and line 1 is pended for nobody.
s = add("record-stray", SOURCES).write(224, bytes(12)).write(256, SET(0, 1))
for p, (t, read) in enumerate(READ.items()):
    s.at(0, 1)
    for source in [i for i in range(12) if i not in read]:
        s.turn("sources", t, source).run(1).pend(p, 1).start().turn("sources", t, source)
# A stray line, the right to read, and the line that rule 8 then asks for; the right taken again, and the line too.
s = add("record-stray-mended", SOURCES).turn("sources", 3, 0).start().turn("reads", 0, 0).start().turn("sources", 9, 0).start().pend(0, 0).run(2)
s.turn("reads", 0, 0).start().turn("sources", 3, 0).start().run(1)
# All sources into 11, and then into each other segment that is no save segment.
s.change("sources", 11, 2047).start()
for t in [i for i in range(11) if i not in READ]:
    s.change("sources", t, 4095 - (1 << t))
s.start().pend(1, 0).run(3).turn("sources", 6, 5).start().turn("sources", 6, 5).start()
# The right to read segment 4 taken away, and then the line that it allowed.
add("record-read-taken", DEMO).write(0, K5).turn("reads", 1, 4).start().turn("sources", 3, 4).start().pend(1, 0).run(2)
add("record-of-zeros", b"").start().pend(0, 0).run(0).pend(0, 8).at(1, 1).run(10001)
add("record-order", DEMO).turn("sources", 1, 1).start().pend(2, 8).at(2, 0).run(10001).turn("sources", 1, 1).pend(2, 8).run(10001).at(0, 0).run(10001).pend(0, 8)
add("record-right-taken", DEMO).write(0, K5).start().turn("writes", 0, 4).turn("sources", 4, 1).run(3).look(64, 44).look(256, 1)
add("record-slots-fewer", DEMO).start().at(1, 0).change("slots", 0, 1).run(1).change("owner", 1, 0).change("ticks", 1, 0).run(1).at(0, 2).run(1)

# Every opcode.
ALL, HIGH_BIT = 0xFFFFFFFF, 0x80000000
R = {0: 0x01020304, 1: 0xA1B2C3D4, 2: 5, 3: ALL, 4: HIGH_BIT, 5: 0x0F0F0F0F, 6: 31, 7: 300}
bench("halt", HALT, SET(1, 1), n=2, registers=R, unused=9)
bench("halt-other-bytes", [0, 255, 254, 253], registers=R)
for n in (0, 1, 255, 256, 65535):
    bench("set-%d" % n, SET(3, n), registers=R)
bench("set-each", *[SET(r, 258 * r) for r in range(8)], n=8, registers=R)
for name, i in [("add", ADD(0, 1, 2)), ("add-wraps", ADD(0, 3, 2)), ("add-wraps-to-0", ADD(4, 4, 4)), ("add-itself", ADD(7, 7, 7)), ("add-all", ADD(1, 3, 3))]:
    bench(name, i, registers=R)
for name, i in [("sub", SUB(0, 1, 2)), ("sub-wraps", SUB(0, 2, 3)), ("sub-itself", SUB(3, 3, 3)), ("sub-0-1", SUB(2, 6, 7)), ("sub-from-high", SUB(7, 4, 2))]:
    bench(name, i, registers=R)
bench("sub-from-0", SUB(0, 0, 1), registers={1: 1})
for name, op in [("and", AND), ("xor", XOR)]:
    bench(name, op(0, 1, 5), op(2, 3, 1), op(6, 3, 3), op(7, 4, 3), n=4, registers=R)
for k in (0, 1, 8, 31, 32, 33, 63, 256, ALL):
    bench("shift-%d" % k, SHIFT(0, 1, 2), SHIFT(3, 3, 2), n=2, registers={**R, 2: k})
bench("load-fills-register", LOAD(1, 2, 3), LOAD(2, 2, 2), LOAD(3, 0, 0), n=3, registers={**R, 0: 63}).look(300, 16)
bench("load-255", SET(0, 255), STORE(0, 2, 2), LOAD(1, 2, 2), LOAD(2, 2, 2), n=4, registers=R)
bench("store-modulo-256", STORE(1, 2, 4), STORE(7, 6, 6), STORE(4, 2, 2), n=3, registers=R).look(400, 16).look(600, 44).look(200, 16)
bench("store-offset-0", STORE(3, 2, 4), registers={3: 0x1FF}).look(399, 3)
bench("jump-taken", JUMP(4, 8), HALT, SET(0, 1), n=2, registers=R)
bench("jump-not-taken", JUMP(0, 8), SET(1, 1), n=2)
bench("jump-itself", JUMP(0, 0), n=100, registers={0: 256})
bench("jump-60", JUMP(0, 60), registers=R).run(1).look(SAVE, 44)
bench("jump-61", JUMP(0, 61), registers=R).run(1).look(SAVE, 44)
bench("jump-65535", JUMP(0, 65535), n=2, registers=R)
bench("jump-unaligned", JUMP(0, 5), [0, 1, 7, 44], [1, 0, 0, 0], n=2, registers=R)
bench("wait", WAIT, SET(0, 9), n=3, registers=R, enabled=255)
bench("wait-other-bytes", [10, 255, 255, 255])
bench("listen", LISTEN(255, 65535), registers=R, pended=0, handler=3, enabled=4)
bench("listen-replaces", LISTEN(3, 258), registers=R, handler=65535, enabled=252)
bench("listen-none", LISTEN(0, 0), registers=R, pended=255, handler=3, enabled=0)
bench("back", BACK, SET(0, 9), n=2, registers=R, inside=1, back=4)
bench("back-other-bytes", [12, 8, 255, 9], registers=R, inside=255, back=65535)
for op in (16, 17, 18, 31, 127, 128, 255):
    bench("opcode-%d" % op, [op, 0, 0, 0], SET(0, 1), n=2, registers=R, unused=1)
for op, registers in enumerate(["", "a", "abc", "abc", "abc", "abc", "abc", "ab", "ab", "a", "", "", "", "ab", "ab", "a"]):
    for x in registers:
        s = add("register-%s-of-%d" % (x, op), BENCH).start()
        for bad in (8, 16, 255):
            i = [op, *(bad if x == y else 2 for y in "abc")]
            s.write(0, i).write(SAVE, save({0: 1, 1: 1, 2: 1})).run(1).look(SAVE + 32, 4)
        s.write(0, [op, *(7 if x == y else 2 for y in "abc")]).write(SAVE, save({2: 1, 7: 3})).run(1).look(SAVE, 44)

# Faults, and which comes first.
for counter in (60, 61, 62, 63, 64, 65531, 65532, 65533, 65535):
    s = bench("counter-%d" % counter, registers=R, counter=counter, n=0, unused=1)
    s.write(60, SET(0, 1)).run(2).look(SAVE, 44)
bench("counter-over-before-opcode", counter=61, registers=R).write(61, [255, 255, 255]).run(1).look(SAVE, 44)
add("code-of-3-and-4", SHORT).write(0, SET(0, 1)).start().write(50, SET(0, 1)).run(2).look(4, 44).look(60, 44).run(2).look(60, 44)
for counter in (0, 4088, 4092, 4093, 4096):
    bench("high-counter-%d" % counter, SET(0, 77), text=HIGH, at=12288 if counter < 4093 else 8000, save_at=1, counter=counter).run(1).look(1, 44)
for offset in (0, 4095, 4096, 65535, 65536, 65536 + 4095, HIGH_BIT, ALL):
    s = bench("high-offset-%d" % offset, LOAD(0, 1, 2), STORE(2, 1, 2), LOAD(3, 1, 2), text=HIGH, at=12288, save_at=1, n=3, registers={1: offset, 2: 200})
    s.look(8191, 2).look(12287, 2)
for segment in range(8):
    s = add("rights-%d" % segment, BENCH).start()
    for i in (LOAD(0, 1, segment), STORE(2, 1, segment)):
        for offset in (0, 15, 16, 43, 44, ALL):
            s.write(0, i).write(SAVE, save({1: offset, 2: 0x155})).run(1).look(SAVE, 4).look(SAVE + 32, 4)
bench("segment-255", LOAD(0, 1, 255), registers=R)
bench("segment-32", STORE(0, 2, 32), registers=R)
bench("segment-31", STORE(0, 2, 31), registers=R)
# The next partition has the right on segments 2 and 4.
for segment in (34, 36):
    add("segment-%d" % segment, DEMO).write(0, LOAD(0, 1, segment)).start().run(1).look(64, 44)
bench("register-before-segment", LOAD(8, 1, 255), registers=R)
add("other-save", DEMO).write(0, LOAD(0, 1, 3)).write(128, STORE(0, 1, 1)).start().run(5).look(64, 44).look(192, 44)
add("other-code", DEMO).write(0, LOAD(0, 1, 2)).write(128, LOAD(0, 1, 0)).start().run(5).look(64, 44).look(192, 44)
add("write-right-alone", DEMO).write(0, LOAD(0, 1, 4)).write(128, STORE(0, 1, 4)).start().run(5).look(64, 44).look(192, 44).look(256, 4)
add("store-15-and-16", DEMO).write(0, code(SET(1, 15), STORE(0, 1, 4), SET(1, 16), STORE(0, 1, 4))).start().run(3).look(64, 44).at(0, 0).run(2).look(64, 44).look(256, 20)
for inside in (1, 2, 255):
    bench("wait-inside-%d" % inside, WAIT, n=2, registers=R, inside=inside, pended=1, enabled=1, unused=255)
bench("back-outside", BACK, n=2, registers=R, back=8)
bench("fault-byte-kept", SET(0, 1), HALT, n=3, registers=R, fault=9)
bench("fault-byte-replaced", [16, 0, 0, 0], n=2, registers=R, fault=9)
bench("faulted-stays", SET(0, 1), n=10, state=2, fault=3, registers=R).pend(0, 1).run(10).look(SAVE, 44)

# Interrupts.
for state in (0, 1, 2, 3, 4, 255):
    for inside in (0, 1, 255):
        bench("interrupt-state-%d-inside-%d" % (state, inside), SET(1, 5), registers=R, state=state, inside=inside, pended=6, enabled=7, handler=40, back=513, unused=1)
        bench("no-line-state-%d-inside-%d" % (state, inside), SET(1, 5), registers=R, state=state, inside=inside, pended=240, enabled=15, handler=40, back=513)
for line in range(8):
    s = bench("line-%d-lowest" % line, SET(1, 5), registers=R, pended=256 - (1 << line), enabled=255 - (2 << line & 255), handler=40)
    s.write(40, BACK).run(2).look(SAVE, 44)
bench("line-not-enabled", SET(1, 5), registers=R, pended=127, enabled=128)
bench("line-7-only", SET(1, 5), registers=R, pended=255, enabled=128, handler=40)
bench("interrupt-before-fault", counter=65535, pended=1, enabled=1, handler=0).run(1).look(SAVE, 44)
bench("interrupt-handler-over", SET(0, 1), pended=1, enabled=1, handler=65535).run(1).look(SAVE, 44)
bench("interrupt-return-65535", BACK, pended=1, enabled=1, counter=0, handler=0, n=3)
s = add("handler-and-back", BENCH).write(0, code(LISTEN(6, 32), SET(0, 1), SET(1, 2), HALT)).write(32, code(ADD(3, 3, 7), SET(4, 256), BACK)).start()
s.run(1).pend(0, 2).pend(0, 0).pend(0, 1).look(SAVE + 32, 12)
for _ in range(11):
    s.run(1).look(SAVE, 44)
s = add("wait-woken", BENCH).write(0, code(LISTEN(8, 20), WAIT, SET(0, 7), HALT)).write(20, code(SET(1, 9), BACK)).start().run(5).look(SAVE, 44)
s.pend(0, 2).run(5).look(SAVE, 44).pend(0, 3).run(1).look(SAVE, 44).run(1).run(1).look(SAVE, 44).run(5).look(SAVE, 44)
s = add("pend-while-inside", BENCH).write(0, code(LISTEN(255, 20), JUMP(1, 4))).write(20, code(ADD(0, 0, 7), BACK)).start().run(1)
s.pend(0, 5).run(1).pend(0, 4).pend(0, 5).run(1).look(SAVE, 44).run(1).run(1).look(SAVE, 44).run(20).look(SAVE, 44)
s = add("pended-until-active", DEMO).write(0, code(LISTEN(1, 16))).write(16, code(SET(2, 99), BACK))
s.write(128, code(LISTEN(3, 8), JUMP(0, 4), SET(3, 98), BACK)).start().run(5).pend(1, 0).run(3).look(192, 44).run(1).look(192, 44).run(6).look(192, 44).look(64, 44)
add("waiting-keeps-its-ticks", DEMO).write(0, code(WAIT)).write(128, COUNT).start().write(196, [1]).run(3).run(2).run(10).look(64, 44).look(192, 44)
add("halted-keeps-its-ticks", DEMO).write(0, HALT).write(128, COUNT).start().write(196, [1]).run(3).run(2).run(10).look(192, 44)

# Longer programs.
add("own-code-changed", SELF).write(0, code(SET(0, 77), SET(1, 14), STORE(0, 1, 0), SET(2, 1))).start().run(4).look(0, 16).look(64, 44)
add("own-code-opcode", SELF).write(0, code(SET(0, 2), SET(1, 12), STORE(0, 1, 0), SET(2, 1))).start().run(4).look(64, 44).run(1).look(64, 44)
add("own-code-itself", SELF).write(0, code(STORE(0, 1, 0), HALT)).start().run(3).look(0, 8).look(64, 44)
add("shared-code-changed", SHARED).write(0, code(SET(0, 12), SET(1, 2), STORE(0, 1, 0), HALT)).start().run(4).run(3).look(0, 12).look(64, 44).look(128, 44)
s = add("byte-handed-on", HANDED).write(0, code(SET(0, 200), STORE(0, 1, 4), LOAD(2, 1, 6), LOAD(3, 1, 5)))
s.write(128, code(LOAD(0, 1, 4), ADD(0, 0, 0), STORE(0, 1, 5), JUMP(0, 0))).start()
s.run(2).look(256, 3).run(3).look(256, 3).run(1).look(64, 44).run(30).look(64, 44).look(192, 44).look(256, 3)
for mode in (DEMO, BENCH, HANDED):
    add("all-memory-as-code-%d" % len(mode), mode, fill=250).run(1000).run(1)
s = add("ring-of-8", FULL)
for p in range(8):
    s.write(4096 + 40 * p, code(LOAD(0, 1, 16 + (p + 7) % 8), ADD(0, 0, 3), STORE(0, 1, 16 + p), STORE(0, 2, 24 + p), ADD(1, 1, 3), AND(1, 1, 4), JUMP(3, 0)))
s.start()
for p in range(8):
    s.write(100 + 44 * p, save({3: 1, 4: 15}))
s.write(9000, range(128)).run(1).run(10000).pend(3, 2).run(9999).look(9000, 128).look(16376, 8).look(100, 44).look(232, 44)
for k in range(3):
    add("rounds-of-full-%d" % k, FULL, fill=k + 3).start().run(10000).run(5000).pend(k, k).run(1)

add_words()
add_counts()
add_reach()
add_sheets()
add_clauses()


def main(root):
    folder = os.path.join(root, "crates", "runs")
    os.makedirs(os.path.join(folder, "data"), exist_ok=True)
    assert len({s.name for s in SCENARIOS}) == len(SCENARIOS) and all(len(s.name) < 40 for s in SCENARIOS)
    write_all(SCENARIOS, os.path.join(folder, "data", "scenarios"), os.path.join(folder, "stdout"))


if __name__ == "__main__":
    main(sys.argv[1])

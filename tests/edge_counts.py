"""The count of ticks since Start and opcode 15 (02, S-8), at the edges of the rules; edge_runs.py writes them with the other scenarios."""
from edge_parts import ADD, BACK, COUNT, HALT, JUMP, LISTEN, SET, STORE, STORE_WORD, WAIT
from edge_parts import BENCH, DEMO, FULL, HIGH, SAVE, SELF, SHARED, TOP, add, bench, code, save

R = {r: 0x01020304 * (r + 1) for r in range(8)}
# Read into r0 and r7, which stand first and last, and into r3 again and again.
BOTH = code(COUNT(0), COUNT(7), JUMP(1, 0))
LOOP = code(COUNT(3), JUMP(1, 0))
# Into each register, one after the other.
EACH = code(*[COUNT(r) for r in range(8)])


def one_by_one(s, ticks, at=SAVE):
    """Ticks in Runs of one, with the save segment after each."""
    for _ in range(ticks):
        s.run(1).look(at, 44)
    return s


def add_counts():
    # Each kind of tick raises the count by 1.
    one_by_one(add("count-of-instructions", BENCH).write(0, code(SET(0, 1), ADD(0, 0, 0), JUMP(0, 4))).start(), 4)
    one_by_one(add("count-of-fault", BENCH).write(0, [16, 0, 0, 0]).start(), 3)
    one_by_one(add("count-of-fault-1", BENCH).start().write(SAVE, save(counter=61)), 2)
    one_by_one(add("count-of-halt", BENCH).write(0, HALT).start(), 3)
    one_by_one(add("count-of-wait", BENCH).write(0, code(LISTEN(2, 20), WAIT)).write(20, code(COUNT(1), BACK)).start(), 4).pend(0, 1).run(1).look(SAVE, 44).run(3).look(SAVE, 44)
    one_by_one(add("count-of-interrupt", BENCH).write(8, code(COUNT(1), BACK)).start().write(SAVE, save(pended=5, enabled=4, handler=8)).write(0, COUNT(2)), 4)
    for state in (1, 2, 3, 4, 255):
        add("count-of-state-%d" % state, BENCH).write(0, COUNT(0)).start().write(SAVE, save(R, state=state)).run(3).run(7).look(SAVE, 44)

    # Opcode 15 at counts near both ends, in one Run and in several, over the end to 0.
    for count in (0, 1, 255, 256, 65535, 65536, 0x7FFFFFFF, 0x80000000, 0x01020304, TOP - 1, TOP):
        s = add("count-at-%d" % count, BENCH).write(0, BOTH).start().write(SAVE, save({1: 1})).at(0, 0, count)
        s.run(1).look(SAVE, 44).run(1).look(SAVE, 44).at(0, 998, count).write(SAVE, save({1: 1})).run(4).look(SAVE, 44)
    for back in range(5):
        count = TOP - back
        add("count-round-in-one-run-%d" % back, BENCH).write(0, BOTH).start().write(SAVE, save({1: 1})).at(0, 0, count).run(5).look(SAVE, 44)
        one_by_one(add("count-round-between-%d" % back, BENCH).write(0, BOTH).start().write(SAVE, save({1: 1})).at(0, 0, count), 5)
    add("count-round-by-run-of-0", BENCH).write(0, BOTH).start().at(0, 0, TOP).run(0).run(0).run(1).run(0).look(SAVE, 44)
    for count in (TOP, TOP - 4999, TOP - 9998, TOP - 9999, TOP - 10000):
        s = add("count-10000-from-%d" % count, BENCH).write(0, LOOP).start().write(SAVE, save({1: 1})).at(0, 7, count)
        s.run(10000).look(SAVE, 44).run(10000).look(SAVE, 44)
    s = add("count-10000-of-8", FULL)
    for p in range(8):
        s.write(4096 + 40 * p, code(COUNT(p), STORE_WORD(p, 7 - p, 16 + p), JUMP(p, 0)))
    s.start().at(17, 3, TOP - 4000).run(10000)
    for p in range(8):
        s.look(100 + 44 * p, 44).look(9000 + 16 * p, 4)

    # Twice in a row; into each register; the other two bytes may have all values, each of them in turn.
    bench("count-twice", COUNT(2), COUNT(2), n=1, registers=R).run(1).look(SAVE, 44)
    bench("count-each", EACH, n=8, registers=R)
    s = add("count-every-b-and-c", HIGH)
    for at in range(0, 256, 128):
        s.write(12288 + 4 * at, code(*[COUNT(i % 8, i, (7 * i + 3) % 256) for i in range(at, at + 128)]))
    s.write(13312, JUMP(0, 0)).start().run(255).look(1, 44).run(2).look(1, 44).run(9743).look(1, 44)
    for a in (7, 8, 9, 16, 128, 255):
        s = add("count-into-%d" % a, BENCH).start()
        for b, c in ((0, 0), (7, 7), (8, 255), (255, 8)):
            s.write(0, COUNT(a, b, c)).write(SAVE, save(R)).at(0, 5, 0x0A0B0C0D).run(1).look(SAVE, 44)
    bench("count-counter-60", COUNT(1, 9, 9), registers=R, counter=60).run(1).look(SAVE, 44)
    bench("count-counter-61", COUNT(9)[:3], registers=R, counter=61)
    bench("count-counter-odd", COUNT(4), registers=R, counter=7)

    # In a handler, and before and after one.
    s = add("count-in-handler", BENCH).write(0, code(LISTEN(8, 32), COUNT(0), WAIT, COUNT(1), HALT)).write(32, code(COUNT(2), COUNT(3), BACK)).start()
    one_by_one(s.run(4).pend(0, 3), 6)
    bench("count-then-wait-in-handler", COUNT(5), WAIT, n=2, registers=R, inside=1)

    # Calls that do no tick leave the count; a Start sets it to 0, one that is refused too.
    add("count-after-pends", BENCH).write(0, EACH).start().run(1).pend(0, 0).pend(0, 7).pend(0, 8).pend(1, 0).run(1).look(SAVE, 44)
    s = add("count-after-refused-run", BENCH).write(0, EACH).start().run(1).run(10001).run(TOP).run(1).look(SAVE, 44)
    s.at(0, 1000, 77).run(1).at(1, 0, 78).run(0).at(1, 0, TOP).run(10001).at(0, 3, 79).run(10001).run(1).look(SAVE, 44)
    add("count-after-start", BENCH).write(0, EACH).start().run(2).start().run(2).look(SAVE, 44).at(0, 0, 5).start().run(2).look(SAVE, 44)
    s = add("count-after-refused-start", DEMO).write(0, EACH).start().run(2).change("slots", 0, 0).run(1).start().run(1).change("slots", 0, 2)
    s.run(1).look(SAVE, 44).at(1, 1, TOP).change("unused", 0, 1).run(3).start().change("unused", 0, 0).run(2).look(SAVE, 44)
    add("count-memory-16383", DEMO, 16383).start().at(1, 1, 9).run(1).pend(0, 0).run(0).start().run(1)
    add("count-no-start", DEMO).write(0, EACH).write(SAVE, save()).run(2).look(SAVE, 44)

    # Two partitions count on together, whatever the other does.
    for name, first in [("runs", LOOP), ("halts", HALT), ("waits", WAIT), ("faults", [200, 0, 0, 0])]:
        s = add("count-while-other-" + name, DEMO).write(0, first).write(128, LOOP).start().write(68, [1]).write(196, [1])
        s.run(4).look(192, 44).run(1).look(192, 44).run(93).look(192, 44).look(64, 44)
    add("count-of-shared-code", SHARED).write(0, code(COUNT(0), COUNT(1), COUNT(2), JUMP(2, 0))).start().run(7).look(64, 44).look(128, 44).run(20).look(64, 44).look(128, 44)

    # The opcode made by the program itself; a stamp on a record of eight bytes; the old opcodes at the highest counts.
    add("count-own-code", SELF).write(0, code(SET(0, 15), SET(1, 12), STORE(0, 1, 0), HALT, HALT)).start().run(4).look(64, 44).look(0, 20).run(1).look(64, 44)
    bench("count-stamps-record", COUNT(0), SET(1, 4), STORE_WORD(2, 3, 2), STORE_WORD(0, 1, 2), JUMP(1, 0), n=5, registers={2: 0x11223344}).look(200, 16).run(5).look(200, 16)
    s = add("count-old-opcodes", BENCH).write(0, code(SET(0, 3), ADD(0, 0, 0), STORE(0, 1, 2), JUMP(0, 4))).start()
    for count in (0, TOP - 5, 0x80000000):
        s.write(SAVE, save()).write(200, bytes(16)).at(0, 0, count).run(12).look(SAVE, 44).look(200, 1)

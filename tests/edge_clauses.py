"""Calls that each fix one clause of a tick: the answer is another if the clause is turned round in the definition and in the code alike. edge_runs.py writes
them last."""
from edge_parts import ADD, AND, BACK, COUNT, HALT, JUMP, LISTEN, LOAD, LOAD_WORD, SET, SHIFT, STORE, STORE_WORD, SUB, WAIT, XOR
from edge_parts import BENCH, HIGH, SAVE, TOP, add, bench, code, policy, save

# No byte of a register is 0, but r2 and r3 are offsets. The other fields have no byte 0 either, and no line is both pended and enabled.
R = {0: 0x11121314, 1: TOP, 2: 5, 3: 8, 4: 0x41424344, 5: 0xF1F2F3F4, 6: 0x61626364, 7: TOP}
FIELDS = {"registers": R, "fault": 9, "pended": 0x5A, "enabled": 0xA5, "back": 0x0B0C, "handler": 0x0D0E, "unused": 77}
OPCODES = {
    "halt": HALT, "set": SET(4, 0x8182), "add": ADD(4, 5, 6), "sub": SUB(4, 5, 6), "and": AND(4, 5, 6), "xor": XOR(4, 5, 6), "shift": SHIFT(4, 5, 6),
    "load": LOAD(4, 2, 3), "store": STORE(4, 2, 4), "jump": JUMP(4, 0x0203), "wait": WAIT, "listen": LISTEN(0x24, 0x0304), "back": BACK,
    "load-word": LOAD_WORD(4, 3, 3), "store-word": STORE_WORD(4, 3, 4), "count": COUNT(4),
}


def traced(partitions, slots):
    """A policy of as many partitions, each with its own code, save segment, and a segment that it alone writes, and these slots."""
    n = partitions
    segments = [(64 * p, 32) for p in range(n)] + [(1024 + 64 * p, 44) for p in range(n)] + [(2048 + 16 * p, 16) for p in range(n)]
    return policy(segments, [(p, n + p) for p in range(n)], [(p, p, "r") for p in range(n)] + [(p, 2 * n + p, "w") for p in range(n)], slots)


def add_schedule(name, partitions, slots):
    """Each partition stores the count of a tick of its own, each time one byte further; a Run for each tick of a round, then two Runs of a round and more."""
    s = add("schedule-" + name, traced(partitions, slots))
    for p in range(partitions):
        s.write(64 * p, code(COUNT(0), STORE_WORD(0, 1, 2 * partitions + p), ADD(1, 1, 2), SET(3, 257 * p + 1), JUMP(3, 0)))
    s.start()
    for p in range(partitions):
        s.write(1024 + 64 * p, save({2: 1})).pend(p, p)
    ticks = sum(t for _, t in slots)
    for _ in range(ticks):
        s.run(1)
        for p in range(partitions):
            s.look(1024 + 64 * p + 32, 2)
    s.run(ticks + 1).run(ticks)
    for p in range(partitions):
        s.look(1024 + 64 * p, 44).look(2048 + 16 * p, 16)
    return s


def add_schedules():
    # In each of these some slot i belongs to another partition than i modulo their number.
    add_schedule("1-0-0", 2, [(1, 2), (0, 1), (0, 3)])
    add_schedule("1-1-0", 2, [(1, 1), (1, 3), (0, 2)])
    add_schedule("1-0", 2, [(1, 3), (0, 1)])
    add_schedule("2-0-2-1", 3, [(2, 1), (0, 2), (2, 3), (1, 1)])
    add_schedule("7-alone-of-8", 8, [(7, 3)])
    add_schedule("3-3-1-of-4", 4, [(3, 1), (3, 2), (1, 2)])
    # A partition without a slot: Start clears its save segment, a line can be pended for it, and no tick goes to it.
    for name, slots in [("0-alone-of-2", [(0, 2)]), ("1-alone-of-2", [(1, 2)]), ("1-1-of-2", [(1, 1), (1, 2)]), ("2-1-of-3", [(2, 1), (1, 2)])]:
        s = add_schedule(name, int(name[-1]), slots).start().pend(0, 3).pend(1, 5)
        s.look(1024, 44).look(1088, 44).run(9).look(1024, 44).look(1088, 44)
    # The owner of a slot waits, is halted or faulted: its ticks go to nobody.
    for name, first in [("waits", WAIT), ("halts", HALT), ("faults", [16, 0, 0, 0])]:
        s = add("schedule-1-0-0-%s" % name, traced(2, [(1, 3), (0, 1), (0, 2)])).write(0, code(COUNT(0), COUNT(1), COUNT(2), COUNT(3)))
        s.write(64, first).start().run(1).run(2).look(1024, 44).run(1).look(1024, 44).run(4).look(1024, 44).look(1088, 44)


def add_kept():
    # What an instruction does not name stays: the fault byte, the byte without use, all lines, both places; outside a handler and inside, for two values.
    for name, i in OPCODES.items():
        s = add("keeps-%s" % name, BENCH).write(0, code(i)).start().at(0, 0, 0x01020304)
        for inside in (0, 1, 255):
            s.write(SAVE, save(**FIELDS, inside=inside)).run(1).look(SAVE, 44).look(404, 9)
    # The same of a tick that takes an interrupt, and of one that finds nothing to do. r7 had ones in all four bytes.
    for line in (0, 1, 7):
        s = add("keeps-interrupt-%d" % line, BENCH).start()
        for state in (0, 3):
            fields = {**FIELDS, "pended": 0x5A | 1 << line, "enabled": 0xA4 | 1 << line}
            s.write(SAVE, save(**fields, counter=0x0708, state=state)).run(1).look(SAVE, 44)
    for state in (1, 2, 3, 4, 5, 7, 8, 128, 255):
        add("keeps-state-%d" % state, BENCH).start().write(SAVE, save(**FIELDS, state=state)).run(3).look(SAVE, 44)
        # With a line that is due: only a waiting partition takes it.
        add("due-state-%d" % state, BENCH).write(0, SET(0, 1)).start().write(SAVE, save(**{**FIELDS, "enabled": 0xA7}, state=state)).run(2).look(SAVE, 44)
    # Each fault, which sets its byte and the state alone.
    faults = {1: (HALT, 61), 2: ([16, 0, 0, 0], 0), 3: (LOAD(0, 2, 4), 0), 4: (LOAD(0, 6, 3), 0), 5: (BACK, 0)}
    for number, (i, counter) in faults.items():
        for before in (0, 6, 255):
            s = add("keeps-fault-%d-over-%d" % (number, before), BENCH).write(0, i).start()
            s.write(SAVE, save(**{**FIELDS, "fault": before}, counter=counter)).run(1).look(SAVE, 44)
    add("keeps-fault-5-inside", BENCH).write(0, WAIT).start().write(SAVE, save(**FIELDS, inside=255)).run(2).look(SAVE, 44)


def add_handlers():
    # A handler that halts: the partition stays halted, inside, at the halt, whatever is pended.
    s = add("inside-halt", BENCH).write(0, code(LISTEN(3, 32), JUMP(1, 4), HALT)).write(32, code(SET(0, 5), HALT, BACK)).start()
    s.write(SAVE, save({1: 1})).run(2).pend(0, 1)
    for _ in range(4):
        s.run(1).look(SAVE, 44)
    s.pend(0, 0).run(3).look(SAVE, 44)
    # A handler that listens anew: the lines and the place are those that it names, as soon as it goes back.
    s = add("inside-listen", BENCH).write(0, code(LISTEN(1, 20), JUMP(1, 4))).write(20, code(LISTEN(6, 32), BACK))
    s.write(32, code(ADD(0, 0, 1), LISTEN(0, 20), BACK)).start().write(SAVE, save({1: 1})).run(2).pend(0, 0).run(1).pend(0, 0).pend(0, 2).look(SAVE, 44)
    for _ in range(8):
        s.run(1).look(SAVE, 44)
    # Back in a handler leaves it, whatever its byte was; a line that is still pended is then due.
    for inside in (1, 2, 128, 254, 255):
        s = add("inside-%d-back" % inside, BENCH).write(0, BACK).start().write(SAVE, save(R, inside=inside, back=0x0102, pended=4, enabled=4, handler=0x0304))
        s.run(1).look(SAVE, 44).run(1).look(SAVE, 44)


def add_waits():
    # A line that is pended and not enabled holds no wait up, and stays; an enabled one then wakes.
    for pended, enabled in [(6, 0), (6, 1), (255, 0), (0x5A, 0xA5)]:
        s = add("wait-pended-%d-enabled-%d" % (pended, enabled), BENCH).write(0, code(WAIT, SET(0, 1))).write(40, BACK).start()
        s.write(SAVE, save(R, pended=pended, enabled=enabled, handler=40)).run(1).look(SAVE, 44).run(3).look(SAVE, 44)
        s.pend(0, 0).run(2).look(SAVE, 44).run(1).look(SAVE, 44)


def add_values():
    # Each byte of ra counts for a jump, and so does its highest bit.
    for value in (0, 1, 128, 256, 65536, 1 << 24, 1 << 31, TOP):
        bench("jump-of-%d" % value, JUMP(6, 0x0234), registers={**R, 6: value})
        bench("jump-r0-other-%d" % value, JUMP(0, 12), registers={r: 0 if r else value for r in range(8)})
    # and, xor, or and sums told apart: all four pairs of bits, in each byte.
    pairs = {**R, 1: 0x03050709, 2: 0x05030907, 3: 0xC3A5F00F, 4: 0x5AC30FF0}
    bench("and-pairs", AND(0, 1, 2), AND(5, 3, 4), AND(6, 4, 3), n=3, registers=pairs)
    bench("xor-pairs", XOR(0, 1, 2), XOR(5, 3, 4), XOR(6, 4, 3), n=3, registers=pairs)
    bench("sub-both-ways", SUB(0, 1, 2), SUB(5, 2, 1), SUB(6, 6, 1), n=3, registers=pairs)
    for k in (31, 32, 33, 64, 65, 1 << 16, (1 << 16) + 1, (1 << 31) + 4):
        bench("shift-of-%d" % k, SHIFT(0, 1, 6), SHIFT(4, 5, 6), n=2, registers={**R, 6: k})
    # set replaces all of a register, load too; store takes the lowest byte and no other.
    for n in (0, 255, 256, 0x7FFF, 0x8000, 65535):
        bench("set-over-ones-%d" % n, SET(1, n), SET(7, n), n=2, registers=R)
    for b in (0, 1, 127, 128, 255):
        bench("load-over-ones-%d" % b, LOAD(1, 2, 3), n=0, registers=R).write(305, [b, 255]).run(1).look(SAVE, 44)
        bench("store-lowest-%d" % b, STORE(4, 2, 4), registers={**R, 4: 0xA1B2C300 + b}).look(400, 16)
    # Places with both bytes in use, in code of 4,096 bytes.
    s = add("places-of-two-bytes", HIGH).write(12288 + 0x0AB4, code(LISTEN(1, 0x0CD0), SET(0, 1))).write(12288 + 0x0CD0, code(SET(1, 2), JUMP(1, 0x0EF4)))
    s.write(12288 + 0x0EF4, BACK).start().write(1, save(counter=0x0AB4)).run(1).look(1, 44).pend(0, 0)
    for _ in range(5):
        s.run(1).look(1, 44)


def add_numbers():
    # n, a partition and a line are numbers of 32 bits: none of them is small again when its upper half is cut off.
    s = add("numbers-cut", BENCH).write(0, code(COUNT(0), COUNT(1))).start()
    for n in (1 << 16, (1 << 16) + 1, 1 << 24, (1 << 31) + 1):
        s.run(n).pend(n - n % 2, 0).pend(0, n).look(SAVE, 44)
    for place in [(1 << 16, 0), (1 << 24, 0), (1 << 31, 0), (0, 1 << 16), (0, 1 << 31)]:
        s.at(*place).run(1)


def add_pends():
    # A line pended twice is pended once; the bits of other lines and all other bytes stay, of any state, inside a handler and outside.
    for state, inside in [(0, 0), (1, 0), (2, 0), (3, 0), (255, 0), (0, 1), (0, 255)]:
        s = add("pend-state-%d-inside-%d" % (state, inside), BENCH).start().write(SAVE, save(**FIELDS, state=state, inside=inside))
        s.pend(0, 0).look(SAVE, 44).pend(0, 0).look(SAVE, 44).pend(0, 1).look(SAVE, 44).pend(0, 7).pend(0, 7).look(SAVE, 44)


def add_clauses():
    add_schedules()
    add_kept()
    add_handlers()
    add_waits()
    add_values()
    add_numbers()
    add_pends()

"""The schedule sheet (02, S-7) at the edges of the rules; edge_runs.py writes its scenarios with the others."""
from edge_parts import ADD, DEMO, JUMP, add, code, policy, save
from edge_reach import BITS, ENTRIES
from machine_reference import record_of
from sheet_reference import sheet


def schedule(n, *slots):
    """A text of n partitions, of one code segment, with these slots. Save segment p is at 64 + 44 × p."""
    return policy([(0, 64)] + [(64 + 44 * p, 44) for p in range(n)], [(0, 1 + p) for p in range(n)], [(p, 0, "r") for p in range(n)], slots)


# Schedules by the slots of partition 0, or by its silence.
SHAPES = [
    ("one-slot", 2, [(0, 1)]),
    ("one-slot-of-1000", 2, [(0, 1000)]),
    ("all-slots", 3, [(0, 3), (0, 1), (0, 1000), (0, 20)]),
    ("no-slot-between", 3, [(0, 3), (2, 4)]),
    ("first", 3, [(0, 2), (1, 3), (2, 5)]),
    ("in-the-middle", 3, [(1, 3), (0, 2), (2, 5)]),
    ("last", 3, [(1, 3), (2, 5), (0, 2)]),
    ("first-and-last", 3, [(0, 2), (1, 3), (2, 5), (0, 4)]),
    ("apart", 3, [(0, 1), (1, 7), (0, 1), (2, 4), (0, 1), (1, 2)]),
    ("neighbours", 3, [(1, 3), (0, 2), (0, 4), (2, 5)]),
    ("neighbours-first", 3, [(0, 2), (0, 4), (1, 3), (2, 5)]),
    ("neighbours-last", 3, [(1, 3), (2, 5), (0, 2), (0, 4)]),
    ("others-neighbours", 3, [(0, 1), (1, 2), (1, 3), (2, 4), (1, 5), (0, 1), (2, 6), (2, 7)]),
    ("longest-round-the-end", 3, [(1, 6), (0, 1), (2, 2), (0, 1), (2, 7)]),
    ("longest-inside", 3, [(1, 3), (0, 1), (2, 9), (0, 1), (1, 2)]),
    ("longest-at-both", 3, [(1, 3), (0, 1), (2, 5), (0, 1), (1, 2)]),
    ("silences-rise", 2, [(0, 1), (1, 2), (0, 1), (1, 3), (0, 1), (1, 4)]),
    ("silences-fall", 2, [(0, 1), (1, 4), (0, 1), (1, 3), (0, 1), (1, 2)]),
    ("most-slots-not-most-ticks", 3, [(0, 1), (1, 1), (2, 1), (1, 1), (0, 1), (2, 9)]),
    ("last-the-longest", 3, [(0, 1), (1, 2), (2, 1000)]),
    ("own-last-the-longest", 3, [(1, 2), (2, 1), (0, 1000)]),
    ("first-the-longest", 3, [(2, 1000), (0, 1), (1, 2)]),
    ("1-and-1000", 2, [(0, 1), (1, 1000)]),
    ("1000-and-1-and-1000", 2, [(1, 1000), (0, 1), (1, 1000)]),
]


def add_shapes():
    add("sheet-demonstration", DEMO).sheet()
    add("sheet-least", schedule(1, (0, 1))).sheet()
    for name, n, slots in SHAPES:
        s = add("sheet-%s" % name, schedule(n, *slots)).sheet()
        # Then with the partitions counted from the other end. Entries past the slots are 0, so a walk too far takes them for slots of partition 0.
        for k, (p, _) in enumerate(slots):
            if p != n - 1 - p:
                s.change("owner", k, n - 1 - p)
        s.sheet()


def add_turned():
    """A schedule that begins with each of its slots in turn: it goes round, so the sheet stays."""
    slots = [(0, 1), (1, 4), (0, 2), (2, 3), (1, 5)]
    s = add("sheet-turned", schedule(3, *slots)).sheet()
    before = sheet(s.record)
    for turn in range(1, 5):
        for k, (p, ticks) in enumerate(slots[turn:] + slots[:turn]):
            s.change("owner", k, p).change("ticks", k, ticks)
        s.sheet()
        assert sheet(s.record) == before


def add_full():
    add("sheet-eight", schedule(8, *((p, 2**p) for p in range(8)))).sheet().change("partitions", 0, 9).sheet().change("partitions", 0, 8).sheet()
    add("sheet-eight-falling", schedule(8, *((7 - k % 8, 1 + 3 * k) for k in range(13)))).sheet()
    add("sheet-eight-but-one-slot", schedule(8, (7, 5))).sheet().change("owner", 0, 3).sheet()
    add("sheet-32-of-1", schedule(8, *((k % 8, 1) for k in range(32)))).sheet()
    add("sheet-32-by-fours", schedule(8, *((k // 4, 1000) for k in range(32)))).sheet().change("slots", 0, 33).sheet().change("slots", 0, 32).sheet()
    # All slots are partition 0's; then partition 7 gets one after another.
    s = add("sheet-32-of-1000", schedule(8, *((0, 1000) for _ in range(32)))).sheet()
    for k in (31, 0, 15, 16, 8, 30):
        s.change("owner", k, 7).sheet()
    # Only one is left to partition 7, the last, the first and one between; then none.
    for k in (0, 15, 16, 8, 30):
        s.change("owner", k, 0)
    s.sheet().change("owner", 31, 0).change("owner", 0, 7).sheet().change("owner", 0, 0).change("owner", 16, 7).sheet().change("owner", 16, 0).sheet()


def change_ticks(s, k, ticks):
    """Slot k gets other ticks. "the longest silence of each partition moves by at most that difference" """
    difference, before = abs(ticks - s.record.ticks[k]), sheet(s.record)[2]
    s.change("ticks", k, ticks).sheet()
    assert all(abs(a - b) <= difference for a, b in zip(before, sheet(s.record)[2]))


def add_differences():
    slots = [(0, 3), (1, 1), (2, 1000), (0, 500), (1, 1000), (0, 1)]
    s = add("sheet-difference", schedule(4, *slots)).sheet()
    for k, (_, before) in enumerate(slots):
        for ticks in (1, 2, 1000, 999, before):
            change_ticks(s, k, ticks)
    # The silence stays where another is as long, moves by less where another takes its place, and else by the whole difference.
    s = add("sheet-difference-taken-over", schedule(2, (0, 1), (1, 20), (0, 1), (1, 20), (0, 1), (1, 18))).sheet()
    for k, ticks in [(1, 10), (3, 15), (3, 19), (3, 17), (5, 1), (1, 17), (1, 18), (3, 1), (5, 1000)]:
        change_ticks(s, k, ticks)


def drawn(n, *limits):
    """n tuples, each of numbers below these limits, always the same ones."""
    x, found = 1, []
    for _ in range(n):
        one = []
        for limit in limits:
            x = (1103515245 * x + 12345) % 2**31
            one.append(x // 2**12 % limit)
        found.append(tuple(one))
    return found


def add_owners():
    s = add("sheet-owners-one-by-one", schedule(8, *((p, 1 + ticks) for p, ticks in drawn(32, 8, 40)))).sheet()
    for k, p, ticks in drawn(40, 32, 8, 1000):
        s.change("owner", k, p).sheet()
        if p % 2:
            change_ticks(s, k, 1 + ticks)


def add_slots():
    s = add("sheet-slots-one-by-one", schedule(3, (1, 2))).sheet()
    # Each is refused until it has ticks; taken again, the record is refused until the entry is 0.
    for k, (p, ticks) in enumerate([(0, 4), (2, 3), (0, 1), (1, 7), (2, 5)], 1):
        s.change("slots", 0, k + 1).sheet().change("ticks", k, ticks).sheet().change("owner", k, p).sheet()
    for k in (5, 4, 3, 2, 1):
        s.change("slots", 0, k).sheet().change("ticks", k, 0).change("owner", k, 0).sheet()


# Entries of the demonstration's schedule with values that no accepted text gives them; edge_reach.py has those of the other fields.
SCHEDULE = [
    ("ticks", 0, (0, 1001, 1024, 65535)), ("ticks", 1, (0, 1001, 65535)), ("owner", 0, (2, 3, 8, 255)), ("owner", 1, (2, 7, 8, 255)),
    ("slots", 0, (0, 1, 3, 32, 33, 64, 255)), ("ticks", 2, (1, 1000)), ("ticks", 31, (1,)), ("owner", 2, (1,)), ("owner", 31, (1,)),
    ("partitions", 0, (0, 1, 3, 8, 9, 255)),
]


def add_refused(name, changes):
    """The demonstration's record with entries changed, one after another, and each put back."""
    s = add(name, DEMO).sheet()
    for field, index, values in changes:
        entry = getattr(s.record, field)
        before = entry[index] if isinstance(entry, list) else entry
        for value in values:
            s.change(field, index, value).sheet()
            assert sheet(s.record)[0] == 10
        s.change(field, index, before).sheet()


def add_unsound():
    record = record_of(DEMO)[1]
    add_refused("sheet-unsound-schedule", SCHEDULE)
    add_refused("sheet-unsound-entries", [change for change in ENTRIES if change[0] not in ("partitions", "slots", "owner", "ticks")])
    add_refused("sheet-unsound-masks", [(field, index, [getattr(record, field)[index] ^ 1 << bits[-1]]) for field, index, bits in BITS])
    add("sheet-zeros", b"").sheet().start()
    add("sheet-text-refused", DEMO[:-1]).sheet()


def add_beside_runs():
    # Memory and place are neither asked nor changed.
    add("sheet-memory-0", DEMO, 0).sheet().start().sheet()
    s = add("sheet-between-runs", DEMO).write(0, code(ADD(0, 0, 1), JUMP(1, 0))).start().write(64, save({1: 1})).run(2).sheet().run(2)
    s.pend(1, 3).sheet().at(0, 3).sheet().run(1).at(0, 2).sheet().run(1).look(64, 44).look(192, 44)


# Each partition adds 1 to its register 0 in each tick in which it is current, if its register 1 is 1.
SEEN, ADDS = schedule(3, (1, 2), (0, 1), (2, 4), (0, 2), (1, 1)), code(*[ADD(0, 0, 1)] * 16)


def add_seen():
    """The sheet beside the machine, two rounds, tick by tick."""
    s = add("sheet-seen", SEEN).write(0, ADDS).start().write(68, [1]).write(112, [1]).write(156, [1]).sheet()
    for _ in range(20):
        s.run(1).look(64, 1).look(108, 1).look(152, 1)
    _, ticks, silence = sheet(s.record)
    looks = [int(line.split(b"\t")[2]) for line in s.expected().split(b"\n") if b"\tlook " in line]
    for p in range(3):
        counts = [0] + looks[p::3]
        current = "".join(str(b - a) for a, b in zip(counts, counts[1:]))
        assert (current[:10].count("1"), max(len(zeros) for zeros in current.split("1"))) == (ticks[p], silence[p])


def add_seen_idle():
    """Partition 0 has halted and partition 1 waits: partition 2 has its ticks as before."""
    s = add("sheet-seen-idle", SEEN).write(0, ADDS).start().write(98, [1]).write(142, [3]).write(156, [1])
    for _ in range(10):
        s.run(1).look(152, 1)
    s.look(64, 88).sheet()


def add_sheets():
    add_shapes()
    add_turned()
    add_full()
    add_differences()
    add_owners()
    add_slots()
    add_unsound()
    add_beside_runs()
    add_seen()
    add_seen_idle()

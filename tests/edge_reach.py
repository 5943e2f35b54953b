"""Who can reach whom (02, S-1): the report and the question at the edges of the rules; edge_runs.py writes them with the other scenarios."""
from edge_parts import ADD, DEMO, JUMP, TOP, add, code, policy, save
from machine_reference import record_of

ALL = 0xFFFFFFFF
# The demonstration with a way back: partition 1 writes segment 5, which partition 0 reads.
ANSWERED = policy(
    [(0, 64), (64, 44), (128, 64), (192, 44), (256, 16), (272, 16)],
    [(0, 1), (2, 3)],
    [(0, 0, "r"), (0, 4, "w"), (0, 5, "r"), (1, 2, "r"), (1, 4, "r"), (1, 5, "w")],
    [(0, 3), (1, 2)],
)
# Three partitions, each reading what the one before writes: 6, 7, and 8, which nobody reads.
HANDED_ON = policy(
    [(64 * i, 44 if i in (1, 3, 5) else 16) for i in range(9)],
    [(0, 1), (2, 3), (4, 5)],
    [(0, 0, "r"), (0, 6, "w"), (1, 2, "r"), (1, 6, "r"), (1, 7, "w"), (2, 4, "r"), (2, 7, "r"), (2, 8, "w")],
    [(0, 1), (1, 1), (2, 1)],
)


def graph(n, *lines, first=0, second=1):
    """A text of n segments and one partition, with `first` for its code and `second` for its save segment: the line from the one to the other is the only
    one that 8 asks for, and the only one that 16 allows into the save segment. All other segments may have any lines."""
    rows = ["segment %d %d %d" % ((i, i, 1) if i < second else (i, i, 44) if i == second else (i, i + 43, 1)) for i in range(n)]
    rows += ["partition 0 %d %d" % (first, second), "right 0 %d r" % first]
    rows += ["flow %d %d" % line for line in sorted({(first, second), *lines})] + ["slot 0 1"]
    return "".join(row.replace(" ", "\t") + "\n" for row in rows).encode()


def chain(*segments):
    return list(zip(segments, segments[1:]))


def ring(*segments):
    return chain(*segments, segments[0])


def ask(s, *pairs):
    """The report, and these questions."""
    s.masks()
    for pair in pairs:
        s.query(*pair)
    return s


def ask_all(s):
    """The report, and the question for each pair: the two must agree."""
    return ask(s, *((a, b) for a in range(s.record.segments) for b in range(s.record.segments)))


def add_small():
    ask_all(add("reach-demonstration", DEMO))
    ask_all(add("reach-least", graph(2)))
    ask(add("reach-answered", ANSWERED), (2, 1), (0, 3), (5, 5), (1, 1), (0, 0), (3, 2))
    ask(add("reach-handed-on", HANDED_ON), (6, 8), (0, 8), (7, 8), (8, 6), (8, 8), (4, 7), (2, 6))
    # A line counts, whether a right asks for it or not.
    s = ask(add("reach-line-more", DEMO).turn("sources", 0, 4), (4, 0), (0, 0), (4, 1), (3, 0)).turn("sources", 0, 4).turn("sources", 2, 3)
    ask(s, (3, 3), (0, 2), (3, 4)).turn("sources", 2, 3).masks()
    # Memory and place are neither asked nor changed.
    ask(add("reach-memory-0", DEMO, 0), (0, 3), (3, 0), (5, 0)).start()
    s = add("reach-between-runs", DEMO).write(0, code(ADD(0, 0, 1), JUMP(1, 0))).start().write(64, save({1: 1})).run(2)
    ask(s, (0, 3), (3, 0), (9, 9)).run(2).masks().at(0, 3).query(0, 3).run(1).look(64, 44)


def add_rings():
    ask(add("reach-ring-of-2", graph(4, *ring(2, 3))), (2, 2), (3, 2), (2, 3), (0, 2), (2, 0), (1, 1))
    s = ask(add("reach-ring-of-3", graph(5, *ring(2, 3, 4))), (2, 2), (2, 4), (4, 3), (0, 4), (4, 1))
    # The other way round, and then without one of its lines.
    ask(s.change("sources", 2, 8).change("sources", 3, 16).change("sources", 4, 4), (2, 2), (3, 4)).change("sources", 4, 0)
    ask(s, (2, 2), (4, 2), (2, 4))
    ask_all(add("reach-ring-through-save", graph(3, (1, 2), (2, 0))))
    ask(add("reach-ring-entered-and-left", graph(6, (1, 2), *ring(2, 3, 4), (3, 5))), (0, 5), (1, 4), (4, 5), (5, 5), (4, 1), (1, 1))
    s = ask_all(add("reach-rings-joined", graph(7, *ring(2, 3), *ring(4, 5, 6), (3, 5))))
    # The line between them gone, and then the other way; then both ways.
    ask(s.change("sources", 5, 16), (2, 6), (6, 2)).turn("sources", 2, 6)
    ask(s, (2, 6), (6, 2), (5, 3)).turn("sources", 5, 3)
    ask(s, (2, 6), (6, 2))


def add_chains():
    """Through all 32 segments, in several orders: which segments lie between two others differs in each."""
    orders = {
        "descending": range(31, -1, -1),
        "outside-in": [i // 2 if i % 2 == 0 else 31 - i // 2 for i in range(32)],
        "by-11": [(11 * i + 5) % 32 for i in range(32)],
    }
    for name, order in orders.items():
        o = list(order)
        s = ask(add("reach-chain-%s" % name, graph(32, *chain(*o), first=o[0], second=o[1])), (o[0], o[31]), (o[31], o[0]), (o[31], o[31]), (o[9], o[24]))
        # Closed, and then cut in the middle.
        ask(s.turn("sources", o[0], o[31]), (o[0], o[0]), (o[16], o[15])).turn("sources", o[16], o[15])
        ask(s, (o[15], o[16]), (o[16], o[15]), (o[16], o[16]))
    # Two ways at each step, of which one is enough.
    layers = [(a, b) for i in range(2, 16, 2) for a in (i, i + 1) for b in (i + 2, i + 3)]
    s = ask(add("reach-layers", graph(18, (0, 2), (0, 3), *layers)), (0, 17), (2, 16), (2, 3), (17, 0)).turn("sources", 8, 6).turn("sources", 9, 7)
    ask(s, (2, 17), (6, 8), (6, 9)).turn("sources", 8, 7).turn("sources", 9, 6)
    ask(s, (2, 17), (7, 8), (8, 17))


def add_ring_of_32():
    s = ask(add("reach-chain-ascending", graph(32, *chain(*range(32)))), (0, 31), (31, 0), (0, 0), (31, 31), (15, 16), (16, 15))
    # Closed at one place after another, at last by the line from 31.
    for k in (2, 3, 8, 16, 30, 31):
        ask(s.change("sources", 0, 1 << k), (k, k), (31, 0))
    # Every pair is yes now, so a number that is cut to one of a segment would show.
    for n in (32, 63, 64, 255, 256, 65536, 1 << 31, TOP - 31, TOP):
        s.query(n, 31).query(0, n)
    # Each of the 32 bits is a segment's; its own is stray all the same, and so is one into the save segment.
    ask(s.query(TOP, TOP).turn("sources", 31, 31), (31, 31), (32, 31)).turn("sources", 31, 31).turn("sources", 1, 31)
    ask(s, (0, 31)).change("sources", 1, 0)
    ask(s, (31, 0)).change("sources", 1, 1).masks()


def add_crowds():
    s = ask(add("reach-crowded", graph(32)), (0, 1), (1, 0), (0, 0), (0, 31), (31, 31))
    # All into one from which no line goes on; then on to another.
    ask(s.change("sources", 31, ALL >> 1), (30, 31), (0, 31), (31, 31), (31, 0), (30, 29)).turn("sources", 2, 31)
    ask(s, (30, 2), (2, 2), (31, 31), (31, 3))
    # Every line that there may be; then none into segment 9, and one alone.
    for t in [i for i in range(31) if i != 1]:
        s.change("sources", t, ALL - (1 << t))
    ask(s, (0, 0), (1, 1), (31, 1), (31, 31), (16, 17)).change("sources", 9, 0)
    ask(s, (9, 0), (0, 9), (9, 9), (8, 10)).change("sources", 9, 1 << 31)
    ask(s, (0, 9), (9, 9))
    # From one, into which no line goes, to all.
    ask(add("reach-out-of-one", graph(10, *((9, t) for t in range(8)), first=9, second=8)), (9, 0), (9, 8), (0, 9), (9, 9), (8, 0), (0, 7))


def add_one_by_one():
    """Lines one after another, and some of them taken out again in another order. With about as many lines as segments one more changes most."""
    n, lines = 1, []
    while len(lines) < 44:
        n = (1103515245 * n + 12345) % 2**31
        a, b = n // 2**10 % 32, n // 2**20 % 32
        if a != b != 1 and (a, b) not in lines:
            lines.append((a, b))
    s = add("reach-one-by-one", graph(32, *lines[:22])).masks()
    for i, (a, b) in enumerate(lines[22:]):
        s.turn("sources", b, a).masks()
        if i % 2:
            s.query(b, lines[i][0])
    for a, b in lines[::4]:
        s.turn("sources", b, a).masks()


def add_numbers():
    # Each would be yes if it were cut to the number of a segment, since 0 reaches 3.
    s = add("reach-numbers", DEMO).masks()
    for n in (5, 31, 32, 64, 128, 256, 65536, 1 << 24, 1 << 31, TOP - 31, TOP):
        s.query(n, 3)
    for n in (5, 31, 33, 35, 67, 131, 259, 65539, (1 << 24) + 3, (1 << 31) + 3, TOP - 28, TOP):
        s.query(0, n)
    for pair in [(5, 5), (32, 35), (256, 259), (63, 63), (255, 255), (TOP, TOP), (4, 3)]:
        s.query(*pair)
    # The segments counted may grow: with a third one that is not there, with one that is, and with a line into it.
    s = ask(add("reach-numbers-of-2", graph(2)), (0, 2), (2, 0), (0, 1)).change("segments", 0, 3)
    ask(s, (0, 1), (0, 2), (0, 3)).change("base", 2, 88).change("size", 2, 1)
    ask(s, (0, 2), (0, 3)).turn("sources", 2, 1)
    ask(s, (0, 2), (2, 0), (3, 2))


# Entries of the demonstration's record with values that no accepted text gives them.
ENTRIES = [
    ("segments", 0, (0, 4, 33, 255)), ("partitions", 0, (0, 1, 9, 33, 255)), ("slots", 0, (0, 33, 255)), ("unused", 0, (1, 128, 255)),
    ("base", 1, (63,)), ("base", 4, (16369,)), ("base", 5, (1,)), ("base", 31, (1,)), ("size", 4, (0, 4097)), ("size", 1, (43,)), ("size", 31, (1,)),
    ("code", 1, (3, 5)), ("code", 2, (1,)), ("code", 7, (1,)), ("save", 1, (1, 5)), ("save", 7, (1,)),
    ("owner", 1, (2,)), ("owner", 31, (1,)), ("ticks", 0, (0, 1001)), ("ticks", 31, (1,)),
]
# Bits of its masks turned. Segments 1 and 3 are save segments, 5 is the first that isn't there.
BITS = [
    # A code segment, save segments, past the last segment, what asks for a line that is not there; partitions that aren't there.
    ("reads", 0, (0, 1, 3, 4, 5, 31)), ("reads", 2, (0,)), ("reads", 7, (31,)), ("writes", 0, (0, 1, 3, 5, 31)), ("writes", 1, (4,)), ("writes", 7, (0,)),
    # Its own bit, past the last segment; a line missing, and stray ones into save segments; segments that aren't there.
    ("sources", 0, (0, 5, 31)), ("sources", 1, (0, 1, 2, 3, 4, 5)), ("sources", 3, (2, 4, 0, 1, 3, 31)), ("sources", 4, (0, 1, 4, 5)),
    ("sources", 5, (0, 5)), ("sources", 31, (0, 31)),
]
# Yes, no, to itself, and numbers that are no segments: 10 comes first.
PAIRS = [(0, 3), (3, 0), (3, 3), (5, 3), (0, 5), (TOP, TOP)]


def add_refused(name, changes):
    """The demonstration's record with entries changed, one after another, and put back. By turns the report is asked for and a question."""
    s, k = ask(add(name, DEMO), *PAIRS), 0
    for field, index, values in changes:
        entry = getattr(s.record, field)
        before = entry[index] if isinstance(entry, list) else entry
        for value in values:
            s.change(field, index, value)
            s.query(*PAIRS[k // 2 % 6]) if k % 2 else s.masks()
            k += 1
        s.change(field, index, before)
    return ask(s, *PAIRS)


def add_unsound():
    record = record_of(DEMO)[1]
    add_refused("reach-unsound-entries", ENTRIES).change("segments", 0, 255).query(254, 0).query(0, 4).masks()
    add_refused("reach-unsound-masks", [(field, index, [getattr(record, field)[index] ^ 1 << bit for bit in bits]) for field, index, bits in BITS])
    ask(add("reach-zeros", b""), (0, 0), (0, 1), (32, 0), (TOP, TOP)).start()


def add_reach():
    add_small()
    add_rings()
    add_chains()
    add_ring_of_32()
    add_crowds()
    add_one_by_one()
    add_numbers()
    add_unsound()

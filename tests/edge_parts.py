"""What edge_runs.py and the edge files that it names are made of: policies, instructions, save segments, and the list of scenarios."""
from scenarios import Scenario

TOP = 4294967295


def policy(segments, partitions, rights, slots):
    """The text with these entries, and with the flow lines that rule 8 asks for."""
    reads = [{save} | {s for q, s, letters in rights if q == p and "r" in letters} for p, (_, save) in enumerate(partitions)]
    writes = [{save} | {s for q, s, letters in rights if q == p and "w" in letters} for p, (_, save) in enumerate(partitions)]
    flows = sorted({(s, t) for p in range(len(partitions)) for s in reads[p] for t in writes[p] if s != t})
    lines = ["segment %d %d %d" % (i, *s) for i, s in enumerate(segments)]
    lines += ["partition %d %d %d" % (i, *p) for i, p in enumerate(partitions)]
    lines += ["right %d %d %s" % r for r in sorted(rights)]
    lines += ["flow %d %d" % f for f in flows] + ["slot %d %d" % s for s in slots]
    return "".join(line.replace(" ", "\t") + "\n" for line in lines).encode()


# The demonstration policy of document 01.
DEMO = policy(
    [(0, 64), (64, 44), (128, 64), (192, 44), (256, 16)],
    [(0, 1), (2, 3)],
    [(0, 0, "r"), (0, 4, "w"), (1, 2, "r"), (1, 4, "r")],
    [(0, 3), (1, 2)],
)
# One partition with each kind of right: segment 2 rw, 3 r, 4 w, 5 none; segment 6 has the length of a save segment.
BENCH = policy(
    [(0, 64), (64, 44), (200, 16), (300, 16), (400, 16), (500, 16), (600, 44)],
    [(0, 1)],
    [(0, 0, "r"), (0, 2, "rw"), (0, 3, "r"), (0, 4, "w"), (0, 6, "rw")],
    [(0, 1000)],
)
SAVE = 64
# A partition that may write its own code.
SELF = policy([(0, 64), (64, 44)], [(0, 1)], [(0, 0, "rw")], [(0, 10)])
# Two partitions with one code, which the first may write.
SHARED = policy([(0, 64), (64, 44), (128, 44)], [(0, 1), (0, 2)], [(0, 0, "rw"), (1, 0, "r")], [(0, 4), (1, 3)])
# Segments of 4,096 bytes up to the end of memory, and a save segment at an odd place.
HIGH = policy([(12288, 4096), (1, 44), (8192, 4096)], [(0, 1)], [(0, 0, "r"), (0, 2, "rw")], [(0, 1)])
# 32 segments, 8 partitions, 32 slots; each partition writes a segment that the next one reads.
FULL = policy(
    [(100 + 44 * p, 44) for p in range(8)] + [(4096 + 40 * p, 40) for p in range(8)] + [(9000 + 16 * p, 16) for p in range(8)] + [(16376 + i, 1) for i in range(8)],
    [(8 + p, p) for p in range(8)],
    [(p, 8 + p, "r") for p in range(8)] + [(p, 16 + p, "rw") for p in range(8)] + [(p, 16 + (p + 7) % 8, "r") for p in range(8)] + [(p, 24 + p, "w") for p in range(8)],
    [(i % 8, 1 + 37 * i % 1000) for i in range(31)] + [(7, 1000)],
)

HALT, WAIT, BACK = [0, 0, 0, 0], [10, 0, 0, 0], [12, 0, 0, 0]


def number(op):
    return lambda a, n: [op, a, n % 256, n // 256]


SET, JUMP, LISTEN = number(1), number(9), number(11)
ADD, SUB, AND, XOR, SHIFT, LOAD, STORE, LOAD_WORD, STORE_WORD = ((lambda op: lambda a, b, c: [op, a, b, c])(op) for op in (*range(2, 9), 13, 14))


def COUNT(a, b=0, c=0):
    return [15, a, b, c]


def code(*instructions):
    return [b for i in instructions for b in i]


def save(registers={}, counter=0, state=0, fault=0, pended=0, enabled=0, back=0, handler=0, inside=0, unused=0):
    out = b"".join(registers.get(r, 0).to_bytes(4, "little") for r in range(8))
    out += counter.to_bytes(2, "little") + bytes([state, fault, pended, enabled])
    return out + back.to_bytes(2, "little") + handler.to_bytes(2, "little") + bytes([inside, unused])


SCENARIOS = []


def add(name, text, size=16384, fill=7):
    """A scenario whose memory has no zero."""
    SCENARIOS.append(Scenario(name, text, size).fill(fill))
    return SCENARIOS[-1]


def bench(name, *instructions, n=1, text=BENCH, at=0, save_at=SAVE, **fields):
    """These instructions at the counter, with this save segment, and n ticks."""
    counter = fields.get("counter", 0)
    return add(name, text).write(at + counter, code(*instructions)).start().write(save_at, save(**fields)).run(n).look(save_at, 44)

"""Texts that each fail in one clause of refusals 2, 5 and 8 alone, so that a reader without this clause answers otherwise; edge_texts.py writes them last."""
from text_parts import DEMO, add, demo, many_segments, small

# Four partitions; all segments are as long as a save segment, so that any could be one.
SEGMENTS = many_segments(8)
PARTITIONS = [(0, 1), (2, 3), (4, 5), (6, 7)]


def four(p, code, save):
    """The policy of four partitions, with this code and save segment for partition p."""
    pairs = [(code, save) if q == p else pair for q, pair in enumerate(PARTITIONS)]
    partitions = [b"partition %d %d %d" % (q, *pair) for q, pair in enumerate(pairs)]
    rights = [b"right %d %d r" % (q, pair[0]) for q, pair in enumerate(pairs)]
    flows = [b"flow %d %d" % pair for pair in sorted(set(pairs))]
    return small(SEGMENTS, partitions, rights, flows, [b"slot 3 1"])


def add_partitions():
    # Refusal 5 at the line of partition 1, 2 or 3, for one earlier partition q: the first, one between, the one just before.
    add("four-partitions", four(3, 6, 7))
    for p in (1, 2, 3):
        add("four-%d-save-is-own-code" % p, four(p, 2 * p, 2 * p))
        for q in range(p):
            add("four-%d-save-is-code-of-%d" % (p, q), four(p, 2 * p, 2 * q))
            add("four-%d-code-is-save-of-%d" % (p, q), four(p, 2 * q + 1, 2 * p + 1))
            add("four-%d-save-is-save-of-%d" % (p, q), four(p, 2 * p, 2 * q + 1))
            add("four-%d-code-is-code-of-%d" % (p, q), four(p, 2 * q, 2 * p + 1))
    # The first partition takes what a later one names: the later line is the bad one.
    add("four-0-save-is-later-code", four(0, 0, 4))
    add("four-0-code-is-later-save", four(0, 5, 1))
    add("four-0-save-is-later-save", four(0, 0, 7))
    add("four-0-code-is-later-code", four(0, 6, 1))


def add_words():
    # Each record word with a letter more, one less, one changed, and with a capital.
    for i, word in [(5, b"partition"), (7, b"right"), (11, b"flow"), (16, b"slot")]:
        rest = DEMO[i][len(word) :]
        for name, other in [("more", word + b"s"), ("less", word[:-1]), ("last", word[:-1] + b"x"), ("first", b"x" + word[1:]), ("capital", word.capitalize())]:
            add("word-%s-%s" % (word.decode(), name), demo((i, other + rest)))


def add_last_segment():
    # 32 segments: partition 0 reads and writes the last one. Rule 8 asks for each of these lines.
    flows = [(0, 1), (0, 31), (1, 31), (31, 1)]
    for missing in [None, *flows]:
        kept = [b"flow %d %d" % f for f in flows if f != missing]
        name = "last-segment" if missing is None else "last-segment-missing-%d-%d" % missing
        add(name, small(many_segments(32), rights=[b"right 0 0 r", b"right 0 31 rw"], flows=kept))


def add_lengths():
    add("code-of-4096", small(segments=[b"segment 0 0 4096", b"segment 1 4096 44"]))
    add("code-of-4097", small(segments=[b"segment 0 0 4097", b"segment 1 4097 44"]))


def add_lines():
    add_partitions()
    add_words()
    add_last_segment()
    add_lengths()

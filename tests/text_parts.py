"""What edge_texts.py and edge_sources.py are made of: lines, policies with some of them changed, and the list of cases."""


def text(*lines, end=b"\n"):
    return b"".join(l.replace(b" ", b"\t") + end for l in lines)


DEMO = [
    b"segment 0 0 64", b"segment 1 64 44", b"segment 2 128 64", b"segment 3 192 44", b"segment 4 256 16",
    b"partition 0 0 1", b"partition 1 2 3",
    b"right 0 0 r", b"right 0 4 w", b"right 1 2 r", b"right 1 4 r",
    b"flow 0 1", b"flow 0 4", b"flow 1 4", b"flow 2 3", b"flow 4 3",
    b"slot 0 3", b"slot 1 2",
]


def demo(*changes):
    """The demonstration text with lines replaced (i, line), left out (i, None) or put before i (-1 - i, line)."""
    lines = list(DEMO)
    for i, line in sorted(changes, key=lambda c: -(c[0] if c[0] >= 0 else -1 - c[0])):
        if i < 0:
            lines.insert(-1 - i, line)
        elif line is None:
            del lines[i]
        else:
            lines[i] = line
    return text(*lines)


def small(segments=None, partitions=None, rights=None, flows=None, slots=None):
    """A least policy: code 0, save 1, one partition."""
    return text(
        *(segments or [b"segment 0 0 64", b"segment 1 64 44"]),
        *(partitions if partitions is not None else [b"partition 0 0 1"]),
        *(rights if rights is not None else [b"right 0 0 r"]),
        *(flows if flows is not None else [b"flow 0 1"]),
        *(slots if slots is not None else [b"slot 0 1"]),
    )


def many_segments(n):
    return [b"segment %d %d 44" % (i, 44 * i) for i in range(n)]


def longest(stray=False):
    """The longest text in decimal: 13,639 bytes where it is accepted, and 14,143 with the flow lines from one save segment into another, which 16 refuses.

    0 to 7 are the save segments, since these have no right lines and ids below 10 are short; with fewer partitions fewer bytes of flow lines come than of
    right lines go. Nine segments have a base of four digits and a length of four, as many as there is room for; of the others, with a base of five digits,
    five have a length of four digits. A sixth would need 900 bytes more, and a segment moved down gives 100 and costs a digit."""
    spans = [(10000 + 44 * i, 44) for i in range(8)] + [(1000 * i, 1000) for i in range(1, 10)]
    spans += [(10352 + 1000 * i, 1000) for i in range(5)] + [(15352 + 100 * i, 100) for i in range(10)]
    segments = [b"segment %d %d %d" % (i, *span) for i, span in enumerate(spans)]
    partitions = [b"partition %d %d %d" % (p, 31, p) for p in range(8)]
    rights = [b"right %d %d rw" % (p, s) for p in range(8) for s in range(8, 32)]
    flows = [b"flow %d %d" % (a, b) for a in range(32) for b in range(32) if a != b and (stray or a > 7 or b > 7)]
    slots = [b"slot 7 1000" for _ in range(32)]
    lines = segments + partitions + rights + flows + slots
    assert len(text(*lines)) == (14143 if stray else 13639)
    return lines


def hexed(lines, form=lambda line, field: True):
    """Lines with their numbers in hexadecimal, those at the places (line, field) that `form` picks."""
    write = lambda at, f: b"0x%x" % int(f) if f.isdigit() and form(*at) else f
    return [b" ".join(write((i, j), f) for j, f in enumerate(line.split(b" "))) for i, line in enumerate(lines)]


CASES = []


def add(name, t):
    CASES.append((name, t))

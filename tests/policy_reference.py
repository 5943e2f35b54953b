#!/usr/bin/env python3
"""A reading of a policy text and policycheck's report, written from documents 01 and 02 alone.

    policy_reference.py < TEXT     writes what policycheck must write for TEXT

It shares nothing with the Rattle code, and serves to make expected outputs and to compare answers.
"""
import sys

KINDS = [b"segment", b"partition", b"right", b"flow", b"slot"]
FIELDS = [3, 3, 3, 2, 2]


def number(field):
    # 02, S-4: "In all places where a number stands, 0x and one to four digits 0–9 or a–f is now read too, without a leading zero except in 0x0.
    # [..] capitals and five digits are 2."
    if field[:2] == b"0x":
        digits = field[2:]
        if not 1 <= len(digits) <= 4 or any(b not in b"0123456789abcdef" for b in digits):
            return None
        if len(digits) > 1 and digits[0] == 48:
            return None
        return int(digits, 16)
    # 01: "Numbers have 1 to 5 digits and no leading zero, except 0 itself."
    if not 1 <= len(field) <= 5 or any(b < 48 or b > 57 for b in field):
        return None
    if len(field) > 1 and field[0] == 48:
        return None
    return int(field)


def parse(line):
    """(kind, values), or None where refusal 2 is due."""
    fields = line.split(b"\t")
    if fields[0] not in KINDS:
        return None
    kind = KINDS.index(fields[0])
    rest = fields[1:]
    if len(rest) != FIELDS[kind]:
        return None
    values = []
    for i, f in enumerate(rest):
        if kind == 2 and i == 2:
            v = {b"r": 1, b"w": 2, b"rw": 3}.get(f)
        else:
            v = number(f)
        if v is None:
            return None
        values.append(v)
    return kind, values


def whole(segments, partitions, rights, flows, slots, reads, writes):
    """Which of the refusals with line 0 is due for lines that are all good, or 0."""
    if not segments or not partitions or not slots:
        return 6
    if any(not rights.get((p, code), 0) & 1 for p, (code, _) in enumerate(partitions)):
        return 7
    for p in range(len(partitions)):
        for t in range(len(segments)):
            for s in range(len(segments)):
                if s != t and writes(p, t) and reads(p, s) and (s, t) not in flows:
                    return 8
    # 02, S-5: "a flow line into p's save segment must come from a segment of R(p). Refused: 16 if a flow line into a save segment has another
    # source, line 0, after 8."
    for p, (_, save) in enumerate(partitions):
        if any(t == save and not reads(p, s) for s, t in flows):
            return 16
    return 0


def read(text):
    """(number, line, policy or None)"""
    if len(text) > 16384:
        return 1, 0, None
    pieces = text.split(b"\n")
    ended, tail = pieces[:-1], pieces[-1]
    segments, partitions, rights, flows, slots = [], [], {}, set(), []
    last_kind, last_pair = 0, None
    for n, line in enumerate(ended + ([tail] if tail else []), 1):
        parsed = parse(line) if n <= len(ended) else None
        if parsed is None:
            return 2, n, None
        kind, v = parsed
        # 3
        if kind < last_kind:
            return 3, n, None
        if kind == 0 and v[0] != len(segments) or kind == 1 and v[0] != len(partitions):
            return 3, n, None
        if kind in (2, 3) and last_kind == kind and last_pair is not None and (v[0], v[1]) <= last_pair:
            return 3, n, None
        # 4
        no_segment = lambda s: s >= len(segments)
        if kind == 0 and (len(segments) >= 32 or not 1 <= v[2] <= 4096 or v[1] + v[2] > 16384):
            return 4, n, None
        if kind == 1 and (len(partitions) >= 8 or no_segment(v[1]) or no_segment(v[2])):
            return 4, n, None
        if kind == 2 and (v[0] >= len(partitions) or no_segment(v[1])):
            return 4, n, None
        if kind == 3 and (no_segment(v[0]) or no_segment(v[1])):
            return 4, n, None
        if kind == 4 and (len(slots) >= 32 or v[0] >= len(partitions) or not 1 <= v[1] <= 1000):
            return 4, n, None
        # 5
        if kind == 0 and any(v[1] < b + l and b < v[1] + v[2] for b, l in segments):
            return 5, n, None
        if kind == 1:
            code, save = v[1], v[2]
            if segments[save][1] != 44 or code == save:
                return 5, n, None
            if any(save in (c, s) or code == s for c, s in partitions):
                return 5, n, None
        if kind == 2 and any(v[1] == s for c, s in partitions):
            return 5, n, None
        if kind == 3 and v[0] == v[1]:
            return 5, n, None
        last_pair = (v[0], v[1]) if kind in (2, 3) else None
        last_kind = kind
        if kind == 0:
            segments.append((v[1], v[2]))
        elif kind == 1:
            partitions.append((v[1], v[2]))
        elif kind == 2:
            rights[(v[0], v[1])] = v[2]
        elif kind == 3:
            flows.add((v[0], v[1]))
        else:
            slots.append((v[0], v[1]))
    reads = lambda p, s: s == partitions[p][1] or bool(rights.get((p, s), 0) & 1)
    writes = lambda p, s: s == partitions[p][1] or bool(rights.get((p, s), 0) & 2)
    number_ = whole(segments, partitions, rights, flows, slots, reads, writes)
    if number_:
        return number_, 0, None
    return 0, 0, (segments, partitions, slots, reads, writes)


def report(text):
    number_, line, policy = read(text)
    if number_:
        return b"refused\t%d\t%d\n" % (number_, line)
    segments, partitions, slots, reads, writes = policy
    out = b"accepted\t%d\t%d\t%d\t%d\n" % (len(partitions), len(segments), len(slots), sum(t for _, t in slots))
    for s in range(len(segments)):
        masks = [sum(1 << p for p in range(len(partitions)) if may(p, s)) for may in (reads, writes)]
        out += b"segment\t%d\t%d\t%d\n" % (s, masks[0], masks[1])
    return out


if __name__ == "__main__":
    sys.stdout.buffer.write(report(sys.stdin.buffer.read()))

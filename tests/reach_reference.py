#!/usr/bin/env python3
"""Who can reach whom: the report, the question and policyreach's output, written from documents 01 and 02 alone.

    reach_reference.py [FROM TO] < TEXT     writes what policyreach must write for TEXT

It shares nothing with the Rattle code, and serves to make expected outputs and to compare answers. The comments quote document 02, S-1, where they do
not name document 01. The report and the question are found in two ways, so that one does not repeat the other's mistake.
"""
import os
import sys

from machine_reference import record_of, sound
from policy_reference import number, read

USAGE = b"usage: policyreach [FROM TO] < POLICY\n"


def leading_to(t, flows):
    """01: "A chain from s to t is one or more flow lines: the first goes out from s, each further one from the segment that the line before went into,
    and the last goes into t." All such s: those with a line into t, and those with a line into one of them, until no more come."""
    found, before = {s for s, to in flows if to == t}, None
    while found != before:
        before, found = found, found | {s for s, to in flows if to in found}
    return found


def reach(record):
    """The number, and a mask for each segment: "all segments from which a chain of one or more flow lines leads to it, [..] itself too if a chain
    returns". Refused by 10, "report empty": all masks are 0."""
    if not sound(record):
        return 10, [0] * 32
    _, flows = record.lines()
    return 0, [sum(2**s for s in leading_to(t, flows)) for t in range(32)]


def can_reach(record, s, t):
    """The number, and 1 for yes or 0 for no. Refused: "15 if s or t isn't a segment, after 10; [..] answer no." """
    if not sound(record):
        return 10, 0
    if s >= record.segments or t >= record.segments:
        return 15, 0
    _, flows = record.lines()
    # Depth first, forwards from s. s itself counts as seen only once a line has led back to it: no lines are no chain.
    seen, ways = set(), [s]
    while ways:
        at = ways.pop()
        for to in [b for a, b in flows if a == at and b not in seen]:
            if to == t:
                return 0, 1  # "stops at the first chain found"
            seen.add(to)
            ways.append(to)
    return 0, 0


def refused(number_, line):
    return b"refused\t%d\t%d\n" % (number_, line)


def reach_report(text):
    """What policyreach writes for a text: a line for each segment with the segments of its row, "ascending"."""
    number_, line, _ = read(text)
    if number_:
        return refused(number_, line)
    record = record_of(text)[1]
    masks = reach(record)[1]
    rows = [[s for s in range(32) if masks[t] >> s & 1] for t in range(record.segments)]
    return b"".join(b"segment\t%d" % t + b"".join(b"\t%d" % s for s in row) + b"\n" for t, row in enumerate(rows))


def reach_answer(text, s, t):
    """What policyreach writes for a text and two numbers."""
    number_, line, _ = read(text)
    if number_:
        return refused(number_, line)
    number_, yes = can_reach(record_of(text)[1], s, t)
    if number_:
        return refused(number_, 0)
    return b"reach\t%d\t%d\t%s\n" % (s, t, b"yes" if yes else b"no")


def main(words):
    numbers = [number(word) for word in words]
    if len(numbers) not in (0, 2) or None in numbers:
        return USAGE
    text = sys.stdin.buffer.read()
    return reach_answer(text, *numbers) if numbers else reach_report(text)


if __name__ == "__main__":
    sys.stdout.buffer.write(main([os.fsencode(word) for word in sys.argv[1:]]))

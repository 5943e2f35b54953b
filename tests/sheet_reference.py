#!/usr/bin/env python3
"""The schedule sheet and policysheet's output, written from documents 01 and 02 alone.

    sheet_reference.py < TEXT     writes what policysheet must write for TEXT

It shares nothing with the Rattle code, and serves to make expected outputs and to compare answers. The comments quote document 02, S-7, where they do
not name document 01. The schedule is walked tick by tick, so that no sum over slots is trusted.
"""
import sys

from machine_reference import record_of, sound
from policy_reference import report


def currents(record, n):
    """The current partition in each of the first n ticks from slot 0 with 0 used."""
    found, slot, used = [], 0, 0
    for _ in range(n):
        found.append(record.owner[slot])  # 01: "Current is the partition of the present slot."
        # 01: "After each tick the ticks used in the slot gain 1. At the slot's ticks the next slot begins with 0 used; after the last comes slot 0."
        used += 1
        if used == record.ticks[slot]:
            slot, used = (slot + 1) % record.slots, 0
    return found


def longest_without(p, ticks):
    longest = here = 0
    for current in ticks:
        here = 0 if current == p else here + 1
        longest = max(longest, here)
    return longest


def sheet(record):
    """The number, and "for each partition, its ticks in one round and the longest stretch of ticks in a row, going round the end, in which it isn't
    current". "Refused: 10, all zeros." """
    if not sound(record):
        return 10, [0] * 8, [0] * 8
    in_round = sum(record.ticks)
    # Two rounds are enough: where p has a slot, a stretch without p that begins in the first ends before the second does.
    walked = currents(record, 2 * in_round)
    ticks = [walked[:in_round].count(p) for p in range(8)]
    # "A partition with no slot shows 0 and 0."
    return 0, ticks, [longest_without(p, walked) if p in walked else 0 for p in range(8)]


def sheet_report(text):
    """What policysheet writes for a text: a line for each partition, then the ticks of one round; for a refused text policycheck's line."""
    number, record = record_of(text)
    if number:
        return report(text)
    _, ticks, silence = sheet(record)
    rows = [b"partition\t%d\t%d\t%d\n" % (p, ticks[p], silence[p]) for p in range(record.partitions)]
    return b"".join(rows) + b"round\t%d\n" % sum(record.ticks)


if __name__ == "__main__":
    sys.stdout.buffer.write(sheet_report(sys.stdin.buffer.read()))

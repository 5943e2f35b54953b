#!/usr/bin/env python3
"""The tick machine and the operations Start, Pend and Run, written from documents 01 and 02 alone.

It shares nothing with the Rattle code, and serves to make expected outputs and to compare answers. The comments quote document 01, where they do not
name document 02.
"""
from policy_reference import parse, read

MEMORY = 16384
WORD = 4294967296


class Record:
    """ "The policy record holds the numbers of segments, partitions and slots; each segment's base and length; each partition's code and save
    segment; each slot's partition and ticks; [..]. Unused entries are 0." 02, S-6: "Keep the right lines of a partition as two 32-bit masks, one for
    read and one for write, and the sources of a segment as one 32-bit mask, bit s for segment s, worth 2 to the power s." One byte is never used. """

    def __init__(self):
        self.segments = self.partitions = self.slots = self.unused = 0
        self.base, self.size = [0] * 32, [0] * 32
        self.code, self.save = [0] * 8, [0] * 8
        self.owner, self.ticks = [0] * 32, [0] * 32
        self.reads, self.writes = [0] * 8, [0] * 8
        self.sources = [0] * 32

    def lines(self):
        """The lines of right and flow that the masks stand for."""
        bits = lambda mask: {s for s in range(32) if mask // 2**s % 2}
        rights = [(p, s, "r" * (s in r) + "w" * (s in w)) for p in range(8) for r, w in [(bits(self.reads[p]), bits(self.writes[p]))] for s in sorted(r | w)]
        return rights, sorted((s, t) for t in range(32) for s in bits(self.sources[t]))


def record_of(text):
    """The number that reading the text answers, and its record. "A refusal returns [..] the record of zeros." """
    number, record, rights, flows = read(text)[0], Record(), [], []
    if number:
        return number, record
    for line in text.split(b"\n")[:-1]:
        kind, v = parse(line)
        if kind == 0:
            record.base[v[0]], record.size[v[0]] = v[1], v[2]
            record.segments += 1
        elif kind == 1:
            record.code[v[0]], record.save[v[0]] = v[1], v[2]
            record.partitions += 1
        elif kind == 2:
            rights.append(v)
        elif kind == 3:
            flows.append(v)
        else:
            record.owner[record.slots], record.ticks[record.slots] = v[0], v[1]
            record.slots += 1
    record.reads = [sum(2**s for q, s, right in rights if q == p and right in (1, 3)) for p in range(8)]
    record.writes = [sum(2**s for q, s, right in rights if q == p and right in (2, 3)) for p in range(8)]
    record.sources = [sum(2**s for s, to in flows if to == t) for t in range(32)]
    return 0, record


def sound(record):
    """ "A record is sound if some accepted text gives it." Such a text has a line for each entry that is in use, and stays accepted, and
    gets no longer, when all its numbers are written in decimal: so the text made here is one if there is any. """
    r = record
    if r.segments > 32 or r.partitions > 8 or r.slots > 32:
        return False
    rights, flows = r.lines()
    lines = ["segment %d %d %d" % (s, r.base[s], r.size[s]) for s in range(r.segments)]
    lines += ["partition %d %d %d" % (p, r.code[p], r.save[p]) for p in range(r.partitions)]
    lines += ["right %d %d %s" % right for right in rights] + ["flow %d %d" % flow for flow in flows]
    lines += ["slot %d %d" % (r.owner[i], r.ticks[i]) for i in range(r.slots)]
    number, given = record_of("".join(line.replace(" ", "\t") + "\n" for line in lines).encode())
    return number == 0 and vars(given) == vars(record)


# "The table of opcodes says for each which operand bytes must be registers, below 8; other bytes may have all values."
HALT, SET, ADD, SUB, AND, XOR, SHIFT, LOAD, STORE, JUMP, WAIT, LISTEN, BACK, LOAD_WORD, STORE_WORD, COUNT = range(16)
# 02, S-2, of opcodes 13 and 14: "operands as for 7 and 8"; S-8, of 15: "a must be a register".
REGISTERS = ["", "a", "abc", "abc", "abc", "abc", "abc", "ab", "ab", "a", "", "", "", "ab", "ab", "a"]
# How many bytes a load or a store moves. 02, S-2: "Opcode 13 loads and opcode 14 stores four bytes".
WIDTH = {LOAD: 1, STORE: 1, LOAD_WORD: 4, STORE_WORD: 4}

# "The save segment is 44 bytes, little-endian: registers r0 to r7 at 0 to 31, four bytes each; program counter 32–33; state 34 [..];
# fault 35; pended lines 36 and enabled lines 37 [..]; return place 38–39; handler place 40–41; in-handler 42 (0 no, else yes); 43 unused."
COUNTER, STATE, FAULT, PENDED, ENABLED, RETURN, HANDLER, INSIDE = 32, 34, 35, 36, 37, 38, 40, 42
READY, HALTED, FAULTED, WAITING = range(4)


class Tick:
    """One tick of a partition, at the count of the place before it."""

    def __init__(self, record, memory, partition, count):
        self.record, self.memory, self.partition, self.count = record, memory, partition, count
        self.at = record.base[record.save[partition]]

    def get(self, field, size=1):
        return int.from_bytes(self.memory[self.at + field : self.at + field + size], "little")

    def put(self, field, value, size=1):
        self.memory[self.at + field : self.at + field + size] = value.to_bytes(size, "little")

    def register(self, r):
        return self.get(4 * r, 4)

    def put_register(self, r, value):
        self.put(4 * r, value % WORD, 4)

    def run(self):
        # "With state 0 or 3, in-handler 0, and a line that is pended and enabled, the tick takes an interrupt."
        lines = [n for n in range(8) if self.get(PENDED) & self.get(ENABLED) & 1 << n]
        if self.get(STATE) in (READY, WAITING) and self.get(INSIDE) == 0 and lines:
            self.interrupt(lines[0])
        # "Else, with state 0, one instruction runs. Else memory is unchanged."
        elif self.get(STATE) == READY:
            self.instruction()

    def interrupt(self, line):
        # "its pended bit is cleared, r7 becomes the line number, the return place takes the program counter, the counter takes the handler
        # place, in-handler becomes 1, state 0."
        self.put(PENDED, self.get(PENDED) & ~(1 << line))
        self.put_register(7, line)
        self.put(RETURN, self.get(COUNTER, 2), 2)
        self.put(COUNTER, self.get(HANDLER, 2), 2)
        self.put(INSIDE, 1)
        self.put(STATE, READY)

    def fault(self, number):
        # "A fault sets state 2 and the fault byte. The rest of memory stays."
        self.put(STATE, FAULTED)
        self.put(FAULT, number)

    def instruction(self):
        code, counter = self.record.code[self.partition], self.get(COUNTER, 2)
        # "1 counter + 4 is over the code length"
        if counter + 4 > self.record.size[code]:
            return self.fault(1)
        at = self.record.base[code] + counter
        op, a, b, c = self.memory[at : at + 4]
        # "2 bad opcode or register"
        if op >= len(REGISTERS) or any({"a": a, "b": b, "c": c}[x] > 7 for x in REGISTERS[op]):
            return self.fault(2)
        # "5 wait inside a handler or back outside one"
        inside = self.get(INSIDE) != 0
        if op == WAIT and inside or op == BACK and not inside:
            return self.fault(5)
        if op in WIDTH:
            # "3 segment c not there, or no line gives the right (save segments never have one)"
            masks = self.record.reads if op in (LOAD, LOAD_WORD) else self.record.writes
            if c >= self.record.segments or not masks[self.partition] >> c & 1:
                return self.fault(3)
            # "4 offset at or past the length"; 02, S-2: "All four must lie inside the segment; a large rb must not come round to a small offset."
            # Numbers here have no bound, so the sum can't.
            if self.register(b) + WIDTH[op] > self.record.size[c]:
                return self.fault(4)
        self.effect(op, a, b, c)

    def effect(self, op, a, b, c):
        n = b + 256 * c
        next_ = self.get(COUNTER, 2) + 4  # "Unless said otherwise the counter gains 4."
        if op == HALT:  # "state 1, counter stays"
            self.put(STATE, HALTED)
            return
        if op == SET:  # "ra = n"
            self.put_register(a, n)
        if op == ADD:  # "ra = rb + rc [..] modulo 4,294,967,296"
            self.put_register(a, self.register(b) + self.register(c))
        if op == SUB:  # "rb − rc"
            self.put_register(a, self.register(b) - self.register(c))
        if op == AND:
            self.put_register(a, self.register(b) & self.register(c))
        if op == XOR:
            self.put_register(a, self.register(b) ^ self.register(c))
        if op == SHIFT:  # "ra = rb moved right by (rc modulo 32) bits, zeros in"
            self.put_register(a, self.register(b) >> self.register(c) % 32)
        if op in WIDTH:
            # "ra = byte at offset rb of segment c", "that byte = ra modulo 256"; 02, S-2: "four bytes, little-endian, at offsets rb to rb + 3".
            at, width = self.record.base[c] + self.register(b), WIDTH[op]
            assert at + width <= MEMORY  # A slice past the end would be cut, or make memory longer.
            if op in (LOAD, LOAD_WORD):
                self.put_register(a, int.from_bytes(self.memory[at : at + width], "little"))
            else:
                self.memory[at : at + width] = (self.register(a) % 256**width).to_bytes(width, "little")
        if op == JUMP and self.register(a) != 0:  # "counter = n if ra is not 0"
            next_ = n
        if op == WAIT:  # "state 3"
            self.put(STATE, WAITING)
        if op == LISTEN:  # "enabled = a, handler place = n"
            self.put(ENABLED, a)
            self.put(HANDLER, n, 2)
        if op == COUNT:  # 02, S-8: "Opcode 15 sets ra to the count before its tick"
            self.put_register(a, self.count)
        if op == BACK:  # "counter = return place, in-handler 0"
            next_ = self.get(RETURN, 2)
            self.put(INSIDE, 0)
        self.put(COUNTER, next_, 2)


def refused(record, memory):
    """ "9: memory isn't 16,384 bytes. 10: the record is that of no accepted text." """
    if len(memory) != MEMORY:
        return 9
    return 0 if sound(record) else 10


def start(record, memory):
    """The number and the place."""
    number = refused(record, memory)
    if number:
        return number, (0, 0, 0)  # "a refused Start returns slot 0 with 0 used"; 02, S-8: the count, "which Start, refused too, sets to 0"
    for s in record.save[: record.partitions]:
        memory[record.base[s] : record.base[s] + 44] = bytes(44)  # "all save segments become zero, other bytes stay"
    return 0, (0, 0, 0)


def pend(record, memory, partition, line):
    """The number."""
    number = refused(record, memory)
    if number:
        return number
    if partition >= record.partitions:
        return 11  # "no such partition"
    if line > 7:
        return 12  # "line above 7"
    memory[record.base[record.save[partition]] + PENDED] |= 1 << line  # "that pended bit becomes 1 and no other bit of memory changes"
    return 0


def run(record, memory, place, n):
    """The number and the place."""
    slot, used, count = place
    number = refused(record, memory)
    if not number and (slot >= record.slots or used >= record.ticks[slot]):
        number = 13  # "slot not in the schedule, or ticks used at or past the slot's"
    if not number and n > 10000:
        number = 14  # "n over 10,000"
    if number:
        return number, place  # "A refused Run returns the place it was given"
    for _ in range(n):
        Tick(record, memory, record.owner[slot], count).run()  # "Current is the partition of the present slot."
        # "After each tick the ticks used in the slot gain 1. At the slot's ticks the next slot begins with 0 used; after the last comes slot 0."
        used += 1
        if used == record.ticks[slot]:
            slot, used = (slot + 1) % record.slots, 0
        count = (count + 1) % WORD  # 02, S-8: "modulo 4,294,967,296", and "each tick raises" it
    return 0, (slot, used, count)

"""A scenario for the test program crates/runs: a policy, a memory and steps; how it is written to the program's file, and what the program must
write. The expected answers come from machine_reference.py, reach_reference.py and sheet_reference.py.

In the file, a scenario is a line of its name, the memory's length and the policy text's length, then the text, then its steps. A step is a line of a
word and up to three numbers; after `write` comes a line of bytes, three digits each. What stands in a line is parted by one space. The last step is
`end`. Words differ in their first letter.
"""
import machine_reference as machine
from reach_reference import can_reach, reach
from sheet_reference import sheet

# The fields of the policy record, by the numbers that `change` has for them.
FIELDS = ["segments", "partitions", "slots", "base", "size", "code", "save", "owner", "ticks", "reads", "writes", "sources", "unused"]


def put(record, field, index, value):
    if isinstance(getattr(record, field), list):
        getattr(record, field)[index] = value
    else:
        setattr(record, field, value)


class Scenario:
    def __init__(self, name, text, size=machine.MEMORY):
        self.name, self.text, self.size, self.steps = name, text, size, []
        # As it stands after the steps so far.
        self.record = machine.record_of(text)[1]

    def step(self, word, *numbers, data=b""):
        self.steps.append((word, list(numbers), data))
        return self

    def start(self):
        return self.step("start")

    def pend(self, partition, line):
        return self.step("pend", partition, line)

    def run(self, n):
        """From the place that the last Start or Run returned."""
        return self.step("run", n)

    def at(self, slot, used, count=0):
        """The place that the next Run is given."""
        return self.step("at", slot, used, count)

    def write(self, at, data):
        """Bytes put into memory."""
        return self.step("write", at, data=bytes(data))

    def fill(self, k):
        """Every byte of memory becomes one that is not 0."""
        return self.step("fill", k)

    def change(self, field, index, value):
        """An entry of the policy record gets another value."""
        put(self.record, field, index, value)
        return self.step("change", FIELDS.index(field), index, value)

    def turn(self, field, index, *bits):
        """Bits of a mask of the policy record are turned."""
        return self.change(field, index, getattr(self.record, field)[index] ^ sum(1 << bit for bit in bits))

    def look(self, at, count):
        """So many bytes of memory are shown."""
        return self.step("look", at, count)

    def masks(self):
        """The report on who can reach whom, of the present record."""
        return self.step("masks")

    def query(self, s, t):
        """Whether segment s can reach segment t."""
        return self.step("query", s, t)

    def sheet(self):
        """The schedule sheet of the present record: each partition's ticks in one round, and its longest silence."""
        return self.step("ticks")

    def encoded(self):
        out = [b"%s %d %d\n" % (self.name.encode(), self.size, len(self.text)), self.text]
        for word, numbers, data in self.steps + [("end", [], b"")]:
            out.append(" ".join([word, *(str(n) for n in numbers)]).encode() + b"\n")
            if data:
                out.append(b" ".join(b"%03d" % b for b in data) + b"\n")
        return b"".join(out)

    def expected(self):
        number, record = machine.record_of(self.text)
        memory, place = bytearray(self.size), (0, 0, 0)
        out = [("policy", number)]
        for word, numbers, data in self.steps:
            if word == "start":
                number, place = machine.start(record, memory)
                out.append(("start", number, "%d %d %d" % place))
            elif word == "pend":
                out.append(("pend %d %d" % tuple(numbers), machine.pend(record, memory, *numbers)))
            elif word == "run":
                number, place = machine.run(record, memory, place, numbers[0])
                out.append(("run %d" % numbers[0], number, "%d %d %d" % place))
            elif word == "at":
                place = tuple(numbers)
            elif word == "write":
                memory[numbers[0] : numbers[0] + len(data)] = data
            elif word == "fill":
                memory[:] = bytes((i + numbers[0]) % 251 + 1 for i in range(self.size))
            elif word == "change":
                put(record, FIELDS[numbers[0]], *numbers[1:])
            elif word == "look":
                at, count = numbers
                out.append(("look %d %d" % (at, count), " ".join(str(b) for b in memory[at : at + count])))
            elif word == "masks":
                number, masks = reach(record)
                out.append(("masks", number, " ".join(str(mask) for mask in masks)))
            elif word == "query":
                out.append(("query %d %d" % tuple(numbers), *can_reach(record, *numbers)))
            elif word == "ticks":
                number, ticks, silence = sheet(record)
                out.append(("ticks", number, " ".join(str(n) for n in ticks), " ".join(str(n) for n in silence)))
        # All of memory, as one number of base 256, modulo the largest prime below 2 to the power 32.
        out.append(("end", int.from_bytes(memory, "big") % 4294967291))
        return "".join("\t".join([self.name] + [str(field) for field in line]) + "\n" for line in out).encode()


def write_all(scenarios, path, stdout):
    with open(path, "wb") as f:
        f.write(b"".join(s.encoded() for s in scenarios))
    with open(stdout, "wb") as f:
        f.write(b"".join(s.expected() for s in scenarios))

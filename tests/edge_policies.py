"""The policies of the folder policies/ as cases for edge_texts.py, and what docs/POLICIES.md says of them beside the blocks that the gate checks."""
import os

from policy_reference import read
from text_parts import add

ROOT = os.path.dirname(os.path.dirname(os.path.abspath(__file__)))
NAMES = ("demonstration", "least", "fullest", "four")


def policy(name):
    with open(os.path.join(ROOT, "policies", name + ".policy"), "rb") as file:
        return file.read()


def fields(text, kind):
    """The fields of the lines of a kind, as numbers but for a right's letters."""
    lines = [line.split(b"\t") for line in text.splitlines() if line.startswith(kind + b"\t")]
    return [[int(f) if f.isdigit() else f for f in line[1:]] for line in lines]


def check_fullest(text):
    """As many lines of each kind as there can be, and every byte of memory in a segment."""
    segments, partitions = fields(text, b"segment"), fields(text, b"partition")
    saves, ids = {s for _, _, s in partitions}, range(32)
    assert [s for s, _, _ in segments] == list(ids) and [p for p, _, _ in partitions] == list(range(8))
    assert sum(length for _, _, length in segments) == 16384
    # "a right names a save segment" is refused by 5; a flow line into a save segment must come from what its partition may read, 02, S-5.
    assert fields(text, b"right") == [[p, s, b"rw"] for p in range(8) for s in ids if s not in saves]
    assert fields(text, b"flow") == [[s, t] for s in ids for t in ids if s != t and not {s, t} <= saves]
    assert [ticks for _, ticks in fields(text, b"slot")] == [1000] * 32


def check_page(names, fullest):
    """The page shows the texts of the files, and of the fullest, which it doesn't show, the size."""
    with open(os.path.join(ROOT, "docs", "POLICIES.md"), "rb") as file:
        page = file.read()
    for name in names:
        assert b"\n```policy 0 0\n" + policy(name) + b"```\n" in page, name
    size = "It has {:,} lines and {:,} bytes".format(fullest.count(b"\n"), len(fullest))
    assert size.encode() in page, size


def add_policies():
    check_fullest(policy("fullest"))
    check_page(["least", "four"], policy("fullest"))
    for name in NAMES:
        number, line, _ = read(policy(name))
        assert (number, line) == (0, 0), name
        add("policies-" + name, policy(name))

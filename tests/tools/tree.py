"""Writes a file with one zVariable whose index has levels: tree.py LEVELS ENTRIES OUT [OFFSET NUMBER]..

Every index record has so many entries; each of the lowest ones names one record of 2 bytes, whose value is 100 more than its
number. Records stand in the order of the walk: the VDR at 372, the top record at 504. Each OFFSET NUMBER pair then puts a field
of 4 bytes.
"""
import sys

from made import fields, opening

levels, entries, out = int(sys.argv[1]), int(sys.argv[2]), sys.argv[3]
changes = [int(word) for word in sys.argv[4:]]
records = entries**levels


def index(level, first, at):
    """The index record of a level that stands at an offset, with all below it."""
    span = records // entries**level
    firsts = [first + span * i for i in range(entries)]
    lasts = [one + span - 1 for one in firsts]
    offsets, below, end = [], b"", at + 20 + 12 * entries
    for one in firsts:
        offsets.append(end + len(below))
        if level < levels:
            below += index(level + 1, one, offsets[-1])
        else:
            below += fields(10, 7) + (100 + one).to_bytes(2, "little")
    return fields(20 + 12 * entries, 6, 0, entries, entries, *firsts, *lasts, *offsets) + below


vdr = fields(132, 8, 0, 2, records - 1, 504, 504, 1, 0, 0, 0, 0, 1, 0, 0, 0) + b"tree".ljust(64, b"\0") + fields(0)
tree = index(1, 0, 504)
data = bytearray(opening(6, 504 + len(tree), 1) + vdr + tree)
for offset, number in zip(changes[::2], changes[1::2]):
    data[offset:offset + 4] = fields(number)
with open(out, "wb") as file:
    file.write(data)

#!/usr/bin/env python3
"""unnamed.py IMAGE INTO: an image of version 2 without its names, as version 1, to measure what names cost. The visible bits
of each occupied cell become 0."""
import sys


class Reader:
    def __init__(self, data):
        self.data, self.at = data, 0

    def number(self, size):
        self.at += size
        return int.from_bytes(self.data[self.at - size:self.at], "big")

    def pass_over(self, size):
        self.at += size


def up(a, b):
    return (a + b - 1) // b


def record_units(n, local):
    """Records of n bits a row, blocks a unit and units a quantum, where a quantum has `local` thousands of records."""
    if n == 0:
        return 1, 0, 0
    wide = up(n, 112)
    row = 112 * wide // n
    return row, wide, up(local, row)


def read_slot(r):
    node = r.number(1)
    if r.number(1) == 1:
        r.pass_over(3)
    counted, actions, _last, data = r.number(1), r.number(1), r.number(1), r.number(2)
    bits = 0
    for _ in range(r.number(2)):
        r.pass_over(2)
        bits += r.number(1)
    kind = r.number(1)
    slot = {"node": node, "actions": actions, "data": data, "bits": bits, "kind": kind}
    if kind == 1:
        k, p, d, _way = r.number(1), r.number(2), r.number(1), r.number(1)
        _row, wide, units = record_units(data, 4 * p)
        keys = [r.number(1) for _ in range(4 * d * k)]
        records = [r.number(1) for _ in range(d * wide * units)]
        r.pass_over(4 * p * d if counted else 0)
        slot.update(k=k, p=p, d=d, keys=keys, records=records)
    elif kind == 2:
        d = r.number(1)
        _row, wide, units = record_units(data + 8, 2)
        keys = [r.number(1) for _ in range(d * up(bits, 40))]
        records = [r.number(1) for _ in range(d * wide * units)]
        r.pass_over(2 * d if counted else 0)
        slot.update(d=d, keys=keys, records=records)
    slot["numbers"] = [(r.number(4), r.number(4)) for _ in range(r.number(4))]
    return slot


def head_places(slot):
    """Where the head of each occupied cell begins: block, row and bit."""
    for cell, _number in slot["numbers"]:
        if slot["kind"] == 1:
            k, p, e = slot["k"], slot["p"], slot["bits"] + 8
            way, row, place = cell // p // (1024 * slot["d"]), cell // p % (1024 * slot["d"]), cell % p
            first, bit = 4 * (row // 1024) + way, place * e
            yield slot["keys"][first * k + bit // 112], row % 1024, bit % 112, slot["keys"][first * k:first * k + k], bit // 112
        else:
            n = slot["data"] + 8
            row, wide, units = record_units(n, 2)
            quantum, local = divmod(cell, 2048)
            unit = quantum * units + local // (1024 * row)
            bit = local % (1024 * row) % row * n
            blocks = slot["records"][unit * wide:unit * wide + wide]
            yield blocks[bit // 112], local % (1024 * row) // row, bit % 112, blocks, bit // 112


def without_bits(rows, slot):
    for _block, row, bit, blocks, at in head_places(slot):
        for add in (1, 2):  # the visible bits stand behind the occupied one
            place = bit + add
            block = blocks[at + place // 112]
            rows[block, row] &= ~(1 << place % 112)


def read_config(r, out):
    """Passes over the configuration, and puts it into `out` with the visible bits cleared."""
    begun = r.at
    r.pass_over(10)
    for _ in range(r.number(1)):
        r.pass_over(4)
        r.pass_over(3 * r.number(1))
    states, = (r.number(2),)
    for _ in range(states):
        r.pass_over(r.number(1))
    for _ in range(r.number(2)):
        r.pass_over(11)
        if r.number(1) == 2:
            r.pass_over(1)
        for _ in range(r.number(1)):
            r.pass_over(5 if r.number(1) == 0 else 3)
    stages = r.number(1)
    out += r.data[begun:r.at]
    for _ in range(stages):
        begun = r.at
        r.pass_over(2)
        slots = []
        for _ in range(r.number(1)):
            if r.number(1) == 0:
                r.pass_over(1)
                if r.number(1) == 1:
                    r.pass_over(3)
                r.pass_over(11 * r.number(1))
            else:
                slots.append(read_slot(r))
        for slot in slots:
            for _ in range(slot["actions"] + 1):
                for _ in range(r.number(1)):
                    r.pass_over(4)
                    for _ in range(2):
                        r.pass_over({0: 2, 1: 2, 2: 4}[r.number(1)])
        out += r.data[begun:r.at]
        rows = {}
        for _ in range(r.number(4)):
            block, row = r.number(1), r.number(2)
            rows[block, row] = r.number(14)
        for slot in slots:
            if slot["kind"]:
                without_bits(rows, slot)
        rows = {place: bits for place, bits in rows.items() if bits}
        out += len(rows).to_bytes(4, "big")
        for (block, row), bits in sorted(rows.items()):
            out += bytes([block]) + row.to_bytes(2, "big") + bits.to_bytes(14, "big")
        begun = r.at
        r.pass_over(13 * r.number(4))
        out += r.data[begun:r.at]


def main():
    image, into = sys.argv[1:]
    with open(image, "rb") as f:
        r = Reader(f.read())
    if r.data[:6] != b"RMTI\0\2":
        sys.exit("no image of version 2")
    r.at = 6
    out = bytearray(b"RMTI\0\1")
    read_config(r, out)
    with open(into, "wb") as f:
        f.write(out)


if __name__ == "__main__":
    main()

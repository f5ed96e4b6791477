#!/usr/bin/env python3
"""Makes the questions of `run` on `edit` with lines that copy parts of earlier values, with their answers: the bytes are computed from the
values by the rules of docs/FORMAT.md, the lines on standard error are by hand from docs/EDITS.md:

    grafts.py questions      lines of `stdin`
    grafts.py answers        lines of `stdout`
"""
import copy
import struct
import sys


class Block:
    def __init__(self, tag, *fields):
        self.tag, self.fields = tag, list(fields)


class Leaf:
    """An object without fields: its code and bytes, and its words on 32 and 64 bits."""

    def __init__(self, data, words32, words64):
        self.data, self.words = data, (words32, words64)


def text(s):
    return Leaf(bytes([0x20 + len(s)]) + s.encode(), 1 + (len(s) + 4) // 4, 1 + (len(s) + 8) // 8)


def double(x):
    return Leaf(b"\x0c" + struct.pack("<d", x), 3, 2)


def doubles(*xs):
    return Leaf(bytes([0x0E, len(xs)]) + b"".join(struct.pack("<d", x) for x in xs), 1 + 2 * len(xs), 1 + len(xs))


def int64(n):
    return Leaf(b"\x19_j\0" + n.to_bytes(8, "big", signed=True), 2 + (8 + 3) // 4, 2 + (8 + 7) // 8)


def encoded(root):
    """The bytes of a value, whose integers are from 0 to 63, and whose blocks have tags below 16 and less than 8 fields."""
    numbers, data, words = {}, bytearray(), [0, 0]

    def add(v):
        if isinstance(v, int):
            data.append(0x40 + v)
        elif id(v) in numbers:
            data.extend([4, len(numbers) - numbers[id(v)]])
        else:
            numbers[id(v)] = len(numbers)
            own = v.words if isinstance(v, Leaf) else (1 + len(v.fields),) * 2
            words[0] += own[0]
            words[1] += own[1]
            if isinstance(v, Leaf):
                data.extend(v.data)
                return
            data.append(0x80 + v.tag + 16 * len(v.fields))
            for field in v.fields:
                add(field)

    add(root)
    header = (len(data), len(numbers), *words)
    return b"\x84\x95\xa6\xbe" + b"".join(n.to_bytes(4, "big") for n in header) + bytes(data)


def at(value, path):
    for step in path:
        value = value.fields[step]
    return value


def set_at(values, k, path, part):
    if path:
        at(values[k], path[:-1]).fields[path[-1]] = part
    else:
        values[k] = part


def graft(k, path, j, source):
    return k, lambda vs: set_at(vs, k, path, copy.deepcopy(at(vs[j], source)))


def link(k, path, source):
    return k, lambda vs: set_at(vs, k, path, at(vs[k], source))


def set_to(k, path, n):
    return k, lambda vs: set_at(vs, k, path, n)


def one_two():
    return Block(0, 1, Block(0, 2, 0))


def cyclic():
    cell = Block(0, 1)
    cell.fields.append(cell)
    return cell


def shared():
    r = Block(0, 0)
    return Block(0, r, r)


def round_trip():
    """(a, 5), where a and b lead to each other and hold one reference."""
    r = Block(0, 7)
    a, b = Block(0), Block(0)
    a.fields[:], b.fields[:] = [b, r], [a, r]
    return Block(0, a, 5)


def leaves(n):
    return Block(0, double(n + 0.5), Block(0, int64(n), Block(0, text("abc"[:n]), doubles(n, 0.25))))


LISTS = [one_two, one_two]
REFS = "int ref * int ref"
NODES = "type node = { mutable next : node; held : int ref }"

# FILE, TYPE, words between `edit` and FILE, the values, the script, its lines that are done, how many values are written, the line on
# standard error, status
CASES = [
    ("", "int list", "", LISTS, "1 graft .1 = 0 .", [graft(1, [1], 0, [])], 2, "", 0),
    ("", "int list", "", [cyclic, one_two], "1 graft .1 = 0 .", [graft(1, [1], 0, [])], 2, "", 0),
    # the earlier value after its own lines, wherever these stand
    ("", "int list", "", LISTS, "0 set .0 = 9\n1 graft . = 0 .1", [set_to(0, [0], 9), graft(1, [], 0, [1])], 2, "", 0),
    ("", "int list", "", LISTS, "1 graft .1 = 0 .\n0 set .0 = 9", [set_to(0, [0], 9), graft(1, [1], 0, [])], 2, "", 0),
    ("", "int list", "", LISTS, "1 graft .1 = 0 .\n0 link .1.1 = .", [link(0, [1, 1], []), graft(1, [1], 0, [])], 2, "", 0),
    ("", "int list", "", LISTS + [one_two], "2 graft .1.1 = 1 .\n1 graft .1 = 0 .1", [graft(1, [1], 0, [1]), graft(2, [1, 1], 1, [])], 3, "", 0),
    # a copy is a part of its value from then on
    ("", "int list", "", LISTS, "1 graft .1 = 0 .\n1 link .1.1.1 = .", [graft(1, [1], 0, []), link(1, [1, 1, 1], [])], 2, "", 0),
    ("", "int list", "", LISTS, "1 graft .1 = 0 .\n1 set .1.0 = 8", [graft(1, [1], 0, []), set_to(1, [1, 0], 8)], 2, "", 0),
    # an integer; the whole value
    ("", "int list", "", LISTS, "1 graft .0 = 0 .1.0", [graft(1, [0], 0, [1, 0])], 2, "", 0),
    ("", "int list", "", [one_two, cyclic], "1 graft . = 0 .", [graft(1, [], 0, [])], 2, "", 0),
    ("", "int list", "", LISTS, "1 graft . = 0.1", [graft(1, [], 0, [1])], 2, "", 0),
    ("", "int list", "", LISTS, "01 graft .01 = 00 (* the first *) .", [graft(1, [1], 0, [])], 2, "", 0),
    # sharing and cycles within the part stay, sharing with the rest of its value and between two copies goes
    ("", REFS, "", [shared, shared], "1 graft .0 = 0 .0", [graft(1, [0], 0, [0])], 2, "", 0),
    ("", REFS, "", [shared, shared], "1 graft . = 0 .", [graft(1, [], 0, [])], 2, "", 0),
    ("", REFS, "", [shared, shared], "1 graft .0 = 0 .0\n1 graft .1 = 0 .1", [graft(1, [0], 0, [0]), graft(1, [1], 0, [1])], 2, "", 0),
    ("", REFS, "", [shared, shared], "1 graft .0 = 0 .0\n1 link .1 = .0\n1 set .0.0 = 3",
     [graft(1, [0], 0, [0]), link(1, [1], [0]), set_to(1, [0, 0], 3)], 2, "", 0),
    (NODES, "node * int", "", [round_trip, round_trip], "0 set .1 = 6\n1 graft .0.0 = 0 .0", [set_to(0, [1], 6), graft(1, [0, 0], 0, [0])], 2, "", 0),
    (NODES, "node * int", "", [round_trip, round_trip], "1 graft .0.1 = 0 .0.0.1", [graft(1, [0, 1], 0, [0, 0, 1])], 2, "", 0),
    # each kind of object
    ("", "float * (int64 * (string * float array))", "", [lambda: leaves(3), lambda: leaves(1)], "1 graft . = 0 .", [graft(1, [], 0, [])], 2, "", 0),
    ("", "float * (int64 * (string * float array))", "", [lambda: leaves(3), lambda: leaves(1)], "1 graft .1.1.1 = 0 .1.1.1\n1 graft .0 = 0 .0",
     [graft(1, [1, 1, 1], 0, [1, 1, 1]), graft(1, [0], 0, [0])], 2, "", 0),
    # one value for several later ones, and one after another
    ("", "int list", "", LISTS * 2, "1 graft .1 = 0 .\n3 graft .1.1 = 0 .1", [graft(1, [1], 0, []), graft(3, [1, 1], 0, [1])], 4, "", 0),
    ("", "int list", "", LISTS * 2, "1 graft .1 = 0 .\n2 graft .1 = 1 .\n3 graft .1 = 2 .",
     [graft(1, [1], 0, []), graft(2, [1], 1, []), graft(3, [1], 2, [])], 4, "", 0),
    # what is edited may have more words than what is read
    ("", "int list", "--limit 6", LISTS, "1 graft .1 = 0 .", [graft(1, [1], 0, [])], 2, "", 0),
    ("", "int list", "--compat32", LISTS, "1 graft .1 = 0 .", [graft(1, [1], 0, [])], 2, "", 0),
    # the value that is copied from does not come before
    ("", "int list", "", LISTS, "0 graft .1 = 0 .", [], 0, "script line 1: Later", 5),
    ("", "int list", "", LISTS, "\n1 graft .1 = 0 .\n0 graft .1 = 1 .", [], 0, "script line 3: Later", 5),
    ("", "int list", "", [], "3 graft . = 3 .", [], 0, "script line 1: Later", 5),
    ("", "int list", "", LISTS, "0 graft .1 = 0.1", [], 0, "script line 1: Later", 5),
    ("", "int list", "", LISTS, "0 graft . = 1 .\n1 grift .", [], 0, "script line 1: Later", 5),
    ("", "int list", "", LISTS, "1 grift .\n0 graft . = 1 .", [], 0, "script line 1: Syntax at 2", 5),
    ("", "int list", "", LISTS, "0 graft .1 = 0 . ?", [], 0, "script line 1: BadByte at 17", 5),
    ("", "int list", "", LISTS, "0 graft .1 = 0 . 1 2", [], 0, "script line 1: Syntax at 19", 5),
    # no line
    ("", "int list", "", LISTS, "1 graft .1 = .", [], 0, "script line 1: Syntax at 13", 5),
    ("", "int list", "", LISTS, "1 graft .1 = 0", [], 0, "script line 1: Syntax at 14", 5),
    ("", "int list", "", LISTS, "1 graft .1 0 .", [], 0, "script line 1: Syntax at 11", 5),
    ("", "int list", "", LISTS, "1 graft . = -0 .", [], 0, "script line 1: Syntax at 12", 5),
    ("", "int list", "", LISTS, "1 graft . = 0 . = 1", [], 0, "script line 1: Syntax at 16", 5),
    # refused at its value: the values before it are written
    ("", "int list", "", LISTS, "1 graft .2 = 0 .", [], 1, "script line 1: NoField(left, 0)", 5),
    ("", "int list", "", LISTS, "1 graft .1 = 0 .7", [], 1, "script line 1: NoField(right, 0)", 5),
    ("", "int list", "", LISTS, "1 graft .1 = 0 .1.1.0", [], 1, "script line 1: NoField(right, 2)", 5),
    ("", "int list", "", LISTS, "1 graft .2 = 0 .7", [], 1, "script line 1: NoField(left, 0)", 5),
    ("", "int list", "", LISTS, "0 set .0 = 9\n1 graft .0 = 0 .", [set_to(0, [0], 9)], 1, "script line 2: IllTyped at .0", 5),
    ("", "int list", "", LISTS, "1 set .0 = 9\n1 graft . = 0 .0\n1 graft .9 = 0 .", [], 1, "script line 2: IllTyped at .", 5),
    ("", "(int ref * int ref) * (int ref * bool ref)", "", [lambda: Block(0, shared(), Block(0, Block(0, 0), Block(0, 1)))] * 2,
     "1 graft .1 = 0 .0", [], 1, "script line 1: IllTyped at .1.0 and .1.1", 5),
    # the value is not there
    ("", "int list", "", LISTS, "2 graft . = 0 .", [], 2, "script line 1: NoValue", 5),
    ("", "int list", "", LISTS, "5 graft . = 4 .\n1 graft . = 0 .1", [graft(1, [], 0, [1])], 2, "script line 1: NoValue", 5),
    # a later value has not the type
    ("", "int list", "", [one_two, lambda: Block(0, Block(0, 1), 0)], "1 graft .0 = 0 .0", [], 1, "value 1: no .0: expected int, found block 0 of 1", 1),
]


def question(file, typ, options, makes, script):
    values = b"".join(encoded(make()) for make in makes)
    words = ["edit", *options.split(), "f.ml", typ, "script"]
    return "\t".join(["run script=" + script.encode().hex(), values.hex(), "=" + file, *words])


def answer(makes, lines, written, err, status):
    values = [make() for make in makes]
    for _, line in sorted(lines, key=lambda pair: pair[0]):
        line(values)
    out = b"".join(encoded(value) for value in values[:written]).hex()
    answer = [f"values: {out}"] if out else []
    return answer + ([f"err: omarshal: {err}"] if err else []) + [f"status {status}"]


def main():
    for file, typ, options, makes, script, lines, written, err, status in CASES:
        print(question(file, typ, options, makes, script))
        if sys.argv[1] == "answers":
            print("\n".join(answer(makes, lines, written, err, status)))


if __name__ == "__main__":
    if len(sys.argv) == 2 and sys.argv[1] in ("questions", "answers"):
        main()
    else:
        sys.exit(__doc__)

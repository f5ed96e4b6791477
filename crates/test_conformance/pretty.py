#!/usr/bin/env python3
"""Makes the questions of `run` with `--pretty`, with their answers worked out by hand from the rules of docs/TEXTS.md:

    pretty.py questions      lines of `stdin`
    pretty.py answers        lines of `stdout`
"""
import sys


def integer(n):
    if 0 <= n < 64:
        return bytes([0x40 + n])
    if n < 128:
        return bytes([0, n])
    return b"\x01" + n.to_bytes(2, "big", signed=True)


class Stream:
    """The tokens of a value, and the numbers of its header."""

    def __init__(self):
        self.data, self.objects, self.words32, self.words64 = b"", 0, 0, 0

    def add(self, part):
        if isinstance(part, int):
            self.data += integer(part)
        elif isinstance(part, str):
            self.data += b"\x09" + bytes([len(part)]) + part.encode()
            self.objects += 1
            self.words32 += 2 + len(part) // 4
            self.words64 += 2 + len(part) // 8
        elif isinstance(part, bytes):
            self.data += part
        else:
            tag, fields = part
            self.data += bytes([0x80 + 16 * len(fields) + tag])
            self.objects += 1
            self.words32 += 1 + len(fields)
            self.words64 += 1 + len(fields)
            for field in fields:
                self.add(field)

    def whole(self):
        numbers = (len(self.data), self.objects, self.words32, self.words64)
        return b"\x84\x95\xa6\xbe" + b"".join(n.to_bytes(4, "big") for n in numbers) + self.data


def value(part):
    stream = Stream()
    stream.add(part)
    return stream.whole()


def listed(items):
    part = 0
    for item in reversed(items):
        part = (0, [item, part])
    return part


A, B = "a" * 40, "b" * 40
LIST = value(listed([1, 2, 3]))
PAIR = value((0, [A, B]))
PAIR_LINES = ["(", f'  "{A}"', f', "{B}"', ")"]
LONG = value(listed(list(range(1001, 1013))))
LONG_LINES = ["::(1001"] + [f", ::({n}" for n in range(1002, 1013)] + [", []" + 12 * ")"]

# a tuple of 80 columns, and one of 81
ROOM = value((0, ["x" * 73, 1]))
NO_ROOM = value((0, ["x" * 74, 1]))

# a string twice, by a reference to the last object
TWICE = value((0, ["y" * 74, b"\x04\x01"]))

RECORD = "type r = { name : string; sizes : int list; last : int option }"
FIELDS = value((0, [A, listed(list(range(100, 110))), 0]))
FIELDS_LINES = (
    ["{", f'  name = "{A}"', "; sizes = ::(100"]
    + [f"  , ::({n}" for n in range(101, 110)]
    + ["  , []" + 10 * ")", "; last = None", "}"]
)
# the list has 10 items of 7 bytes each, `::(100, `: with `; sizes = ` and its end 10 + 10 * 8 + 2 + 10 columns

NODE = "type t = Leaf | Node of t * string * t"
TREE = value((0, [(0, [0, A, 0]), B, 0]))
TREE_LINES = ["Node(", f'  Node(Leaf, "{A}", Leaf)', f', "{B}"', ", Leaf", ")"]

ARRAY = value((0, [A, B]))
ARRAY_LINES = ["[|", f'  "{A}"', f'; "{B}"', "|]"]

# brackets in words are none
WORDS = value((0, ["(" * 40, "}, {" * 10]))
WORDS_LINES = ["(", '  "' + "(" * 40 + '"', ', "' + "}, {" * 10 + '"', ")"]


def nested(depth, part):
    for _ in range(depth):
        part = (0, [part])
    return part


# an option in an option, 23 deep: 40 columns is the widest indentation
DEEP = value(nested(23, "z" * 74))
DEEP_LINES = (
    [min(2 * k, 40) * " " + "Some(" for k in range(23)]
    + [40 * " " + '"' + 74 * "z" + '"']
    + [min(2 * k, 40) * " " + ")" for k in reversed(range(23))]
)

TUPLE = " * ".join(20 * ["int"])
PRETTY = ["show", "--pretty", "f.ml"]
TWO = "string * string"
USAGE = ([], "usage", 2)

# settings, input, FILE, words, lines on out, the line on err, status
CASES = [
    ("", LIST, "", PRETTY + ["int list"], ["::(1, ::(2, ::(3, [])))"], "", 0),
    ("", b"", "", PRETTY + ["int list"], [], "", 0),
    ("", LONG, "", PRETTY + ["int list"], LONG_LINES, "", 0),
    ("", PAIR, "", PRETTY + [TWO], PAIR_LINES, "", 0),
    ("", PAIR, "", ["show", "f.ml", TWO], [f'("{A}", "{B}")'], "", 0),
    ("", ROOM, "", PRETTY + ["string * int"], ['("' + "x" * 73 + '", 1)'], "", 0),
    ("", NO_ROOM, "", PRETTY + ["string * int"], ["(", '  "' + "x" * 74 + '"', ", 1", ")"], "", 0),
    ("", TWICE, "", PRETTY + [TWO], ["(", '  #0="' + "y" * 74 + '"', ", #0", ")"], "", 0),
    ("", FIELDS, RECORD, PRETTY + ["r"], FIELDS_LINES, "", 0),
    ("", TREE, NODE, PRETTY + ["t"], TREE_LINES, "", 0),
    ("", ARRAY, "", PRETTY + ["string array"], ARRAY_LINES, "", 0),
    ("", WORDS, "", PRETTY + [TWO], WORDS_LINES, "", 0),
    ("", DEEP, "", PRETTY + ["string" + 23 * " option"], DEEP_LINES, "", 0),
    # several values; one without the type has its one line, however long
    ("", PAIR + PAIR, "", PRETTY + [TWO], PAIR_LINES + PAIR_LINES, "", 0),
    ("", LONG + LIST, "", PRETTY + ["int list"], LONG_LINES + ["::(1, ::(2, ::(3, [])))"], "", 0),
    ("", PAIR + LIST + PAIR, "", PRETTY + [TWO], PAIR_LINES + ["no .0: expected string, found int 1"] + PAIR_LINES, "", 1),
    ("", value(1), "", PRETTY + [TUPLE], [f"no .: expected {TUPLE}, found int 1"], "", 1),
    ("", PAIR + b"hello", "", PRETTY + [TWO], PAIR_LINES, "value 1: BadMagic(68656c6c)", 4),
    ("", PAIR + PAIR[:30], "", PRETTY + [TWO], PAIR_LINES, "value 1: Truncated(30)", 4),
    # the part at a path
    ("", PAIR, "", ["get", "--pretty", "f.ml", TWO, "."], PAIR_LINES, "", 0),
    ("", PAIR, "", ["get", "--pretty", "f.ml", TWO, ".1"], [f'"{B}"'], "", 0),
    ("", PAIR, "", ["get", "--pretty", "f.ml", TWO, ".2"], ["none"], "", 1),
    ("", PAIR, "", ["get", "f.ml", TWO, "."], [f'("{A}", "{B}")'], "", 0),
    ("", FIELDS, RECORD, ["get", "--pretty", "f.ml", "r", ".1"], ["::(100"] + [f", ::({n}" for n in range(101, 110)] + [", []" + 10 * ")"], "", 0),
    ("", LIST, "", ["get", "--pretty", "f.ml", TWO, "."], ["no .0: expected string, found int 1"], "", 1),
    ("", PAIR, "", ["get", "--pretty", "f.ml", TWO, "1"], [], "bad path", 2),
    # words
    ("", PAIR, "", ["show", "--limit", "17", "--pretty", "f.ml", TWO], PAIR_LINES, "", 0),
    ("", PAIR, "", ["show", "--pretty", "--limit", "17", "f.ml", TWO], PAIR_LINES, "", 0),
    ("", PAIR, "", ["show", "--pretty", "--limit=16", "f.ml", TWO], [], "value 0: TooLarge(words, 17, 16)", 4),
    ("", PAIR, "", ["show", "f.ml", "--pretty", TWO], PAIR_LINES, "", 0),
    ("", PAIR, "", ["get", "f.ml", TWO, ".", "--pretty"], PAIR_LINES, "", 0),
    ("", PAIR, "", ["show", "--pretty", "--", "f.ml", TWO], PAIR_LINES, "", 0),
    ("", PAIR, "", ["show", "--", "--pretty", TWO], [], "cannot open --pretty", 8),
    ("", PAIR, "", ["show", "--pretty", "--pretty", "f.ml", TWO], *USAGE),
    ("", PAIR, "", ["show", "--pretty=true", "f.ml", TWO], *USAGE),
    ("", PAIR, "", ["show", "--pretty", "f.ml"], *USAGE),
    ("", PAIR, "", ["--pretty", "show", "f.ml", TWO], *USAGE),
    ("", PAIR, "", ["get", "--pretty", "f.ml", TWO], *USAGE),
    ("", PAIR, "", ["check", "--pretty", "f.ml", TWO], *USAGE),
    ("", PAIR, "", ["trees", "--pretty", "f.ml", TWO], *USAGE),
    ("", PAIR, "", ["dump", "--pretty"], *USAGE),
    ("", PAIR, "", ["edit", "--pretty", "f.ml", TWO, "script"], *USAGE),
    ("", b"", "", ["build", "--pretty", "f.ml", TWO], *USAGE),
    # calls that fail
    ("fetch=0", PAIR, "", PRETTY + [TWO], [], "cannot open f.ml", 8),
    ("put_out=0", PAIR, "", PRETTY + [TWO], [], "", 7),
    ("out=6", PAIR, "", PRETTY + [TWO], ["(", '  "a'], "", 7),
]


def main():
    for settings, stream, text, words, out, err, status in CASES:
        print("\t".join(["run " + settings, stream.hex(), "=" + text] + words))
        if sys.argv[1] == "questions":
            continue
        for line in out[:-1]:
            print(line)
        for line in out[-1:]:
            print(line + " (cut)" if settings.startswith("out=") else line)
        if err:
            print("err: omarshal: " + err)
        print(f"status {status}")
        if "fetch" in settings:
            print("failed to fetch: 1")


if len(sys.argv) == 2 and sys.argv[1] in ("questions", "answers"):
    main()
else:
    sys.exit(__doc__)

#!/usr/bin/env python3
"""Makes the questions of `run` on `check` of values that have one type mismatch far from the root, with their answers: the bytes are computed from
the values by the rules of docs/FORMAT.md, the lines are by hand from the rules of typing:

    mismatches.py questions      lines of `stdin`
    mismatches.py answers        lines of `stdout`
"""
import sys
from grafts import Block, double, encoded, text


def cells(values, end=0):
    """A list of the values."""
    for value in reversed(values):
        end = Block(0, value, end)
    return end


def ints_but(at, other, n=30):
    """The integers below n, but for one."""
    return [other if i == at else i for i in range(n)]


def tree(depth, at):
    """Nodes to the left, each with no right one, of which one has a text in place of its integer."""
    node = 0
    for i in reversed(range(depth)):
        node = Block(0, node, text("ab") if i == at else i, 0)
    return node


def rows(depth, last):
    """Records in one another, of which the innermost ends with this."""
    row = Block(0, depth, 0, last)
    for i in range(depth):
        row = Block(0, i, Block(0, row), double(0.5))
    return row


def no(steps, expected, found):
    return f"no {'.' + '.'.join(map(str, steps))}: expected {expected}, found {found}"


def right(n, *steps):
    return [1] * n + list(steps)


ONE = encoded(1)
YES = encoded(cells(range(3)))
FAR = encoded(cells(ints_but(20, text("ab"))))
FAR_NO = no(right(20, 0), "int", "string")
# the same list at two paths: a reference leads back to a block that has the mismatch below it
TWICE = cells(ints_but(4, text("ab"), 6))
# a text that is met again before the mismatch and at it
AGAIN = text("ab")
TREE = "type t = E | N of t * int * t"
ROW = "type r = {a: int; b: r option; c: float}"


# FILE, the type, the bytes, lines on out, the line on err, status
CASES = [
    ("", "int list", FAR, [FAR_NO], "", 1),
    ("", "int list", encoded(cells(ints_but(20, double(1.5)))), [no(right(20, 0), "int", "float")], "", 1),
    ("", "int list", encoded(cells(ints_but(20, Block(3, 1, text("ab"))))), [no(right(20, 0), "int", "block 3 of 2")], "", 1),
    ("", "int list", encoded(cells(range(12), 3)), [no(right(12), "int list", "int 3")], "", 1),
    ("", "int list", encoded(cells(range(12), text(""))), [no(right(12), "int list", "string")], "", 1),
    ("", "string list", encoded(cells([text("ab")] * 9 + [7])), [no(right(9, 0), "string", "int 7")], "", 1),
    (TREE, "t", encoded(tree(12, 11)), [no([0] * 11 + [1], "int", "string")], "", 1),
    (TREE, "t", encoded(tree(12, 3)), [no([0] * 3 + [1], "int", "string")], "", 1),
    (ROW, "r", encoded(rows(4, text("x"))), [no([1, 0] * 4 + [2], "float", "string")], "", 1),
    # nothing is shown where a reference comes in place of the mismatch, or leads back to a block on the way to it
    ("", "string * int list", encoded(Block(0, AGAIN, cells(ints_but(6, AGAIN, 9)))), [no([1] + right(6, 0), "int", "string")], "", 1),
    ("", "int list * int list", encoded(Block(0, TWICE, TWICE)), [no([0] + right(4, 0), "int", "string")], "", 1),
    ("", "string list * int list", encoded(Block(0, cells([AGAIN] * 3), cells(ints_but(6, text("c"), 9)))), [no([1] + right(6, 0), "int", "string")], "", 1),
    # the line of each value, and the status of all
    ("", "int list", FAR + YES + FAR, [FAR_NO, "yes", FAR_NO], "", 1),
    ("", "int list", YES + FAR + YES, ["yes", FAR_NO, "yes"], "", 1),
    # what is refused or cut behind the mismatch stops the run
    ("", "int list", FAR[:-1], [], f"value 0: Truncated({len(FAR) - 1})", 4),
    ("", "int list", YES + FAR[:-5], ["yes"], f"value 1: Truncated({len(FAR) - 5})", 4),
    ("", "int list", FAR[:-1] + b"\x1f", [], f"value 0: BadCode(1f) at {len(FAR) - 1}", 4),
    ("", "int list", FAR + ONE[:3], [FAR_NO], "value 1: Truncated(3)", 4),
]
CHUNKS = ["", "piece=1", "piece=40"]


def main():
    for file, type_text, stream, out, err, status in CASES:
        for settings in CHUNKS:
            print("\t".join(["run " + settings, stream.hex(), "=" + file, "check", "f.ml", type_text]))
            if sys.argv[1] == "questions":
                continue
            for line in out:
                print(line)
            if err:
                print("err: omarshal: " + err)
            print(f"status {status}")


if __name__ == "__main__":
    if len(sys.argv) == 2 and sys.argv[1] in ("questions", "answers"):
        main()
    else:
        sys.exit(__doc__)

#!/usr/bin/env python3
"""Makes the questions of `run` on values of a few parts that have none, and on those that only seem to be such, with their answers worked
out by hand, the bytes and the headers too, from docs/FORMAT.md, docs/TYPING.md and docs/TEXTS.md:

    flats.py questions      lines of `stdin`
    flats.py answers        lines of `stdout`
"""
import sys


def value(objects, words32, words64, body, length=None):
    data = bytes.fromhex(body)
    numbers = (len(data) if length is None else length, objects, words32, words64)
    return b"\x84\x95\xa6\xbe" + b"".join(n.to_bytes(4, "big") for n in numbers) + data


def strings(n, last="string"):
    """The type of a tuple of n parts, all but the last ones strings."""
    return " * ".join(["string"] * (n - 1) + [last])


def no(path, expected, found):
    return f"no {path}: expected {expected}, found {found}"


def conflict(one, other, first, second):
    return f"no {one} and {other}: {first} and {second} share a mutable object"


ONE = value(0, 0, 0, "41")
TWO = value(0, 0, 0, "42")
TEXT = value(1, 2, 2, "226162")
EMPTY_TEXT = value(1, 2, 2, "20")
# 5 and "ab", "ab" and 5, "ab" and "cd", and "ab" twice
PAIR = value(2, 5, 5, "a045226162")
TURNED = value(2, 5, 5, "a022616245")
OTHERS = value(3, 7, 7, "a0226162226364")
TWICE = value(2, 5, 5, "a0226162 0401")
# a block that has "a", "b", and that "a" again; objects 0, 1, 2, 3, and 2
FALLING = value(4, 10, 10, "b0 902161 2162 0402")
# 1 and [2], 1 and [], [2] twice, "ab", 5 and [1]
WITH_LIST = value(2, 6, 6, "a041 a04240")
NO_LIST = value(1, 3, 3, "a04140")
LIST_TWICE = value(2, 6, 6, "a0 a04240 0401")
LAST_LIST = value(3, 9, 9, "b0 226162 45 a04140")
ITSELF = value(1, 3, 3, "a0450401")
# eight and nine strings; the last one is the first one, or 5
EIGHT = value(9, 25, 25, "0800002000" + "21612162216321642165216621672168")
EIGHT_ROUND = value(8, 23, 23, "0800002000" + "2161216221632164216521662167" + "0407")
NINE = value(10, 28, 28, "0800002400" + "216121622163216421652166216721682169")
NINE_ROUND = value(9, 26, 26, "0800002400" + "21612162216321642165216621672168" + "0408")
NINE_FIVE = value(9, 26, 26, "0800002400" + "21612162216321642165216621672168" + "45")
# 1.5 in both orders, two doubles
FLOAT = value(1, 3, 2, "0c 000000000000f83f")
FLOAT_BIG = value(1, 3, 2, "0b 3ff8000000000000")
FLOATS = value(1, 5, 3, "0e02 000000000000f03f 0000000000000040")
# atoms, encoded in each way
ATOM = value(0, 0, 0, "80")
ATOM_LONG = value(0, 0, 0, "08 00000300")
PAIR_ATOM = value(1, 3, 3, "a04580")
PAIR_ATOM_LONG = value(1, 3, 3, "a045 08 00000300")
PAIR_ATOM_LONGEST = value(1, 3, 3, "a045 13 0000000000000000")
PAIR_ATOM_NINE = value(1, 3, 3, "a045 08 00000009")
# a block of "ab", and twice the same
CELL = value(2, 4, 4, "90226162")
CELLS = value(3, 7, 7, "a0 90226162 0402")
# customs
PAIR_LONG = value(2, 7, 6, "a045 195f6a00 0000000000000007")
PAIR_LONG_OLD = value(2, 7, 6, "a045 125f6a00 0000000000000007")
LONG_TWICE = value(2, 7, 6, "a0 195f6a00 0000000000000007 0401")
CUSTOMS = value(4, 14, 13, "b0 195f690000000007 195f6a000000000000000007 195f6e000100000007")
# the last token is a string of 40 bytes or of 300, a double, doubles, an integer, a reference
A40 = "61" * 40
LONG_8 = value(2, 15, 10, "a045 09 28" + A40)
LONG_32 = value(2, 15, 10, "a045 0a 00000028" + A40)
LONG_64 = value(2, 15, 10, "a045 15 0000000000000028" + A40)
LONGEST = value(1, 77, 39, "0a 0000012c" + "78" * 300)
LAST_FLOAT = value(2, 6, 5, "a045 0c 000000000000f83f")
LAST_FLOATS = value(2, 8, 6, "a045 0e02 000000000000f03f 0000000000000040")
LAST_INT = value(1, 3, 3, "a045 02 00000007")
LAST_LONG_INT = value(1, 3, 3, "a045 03 fffffffffffffff9")
LAST_FAR = [value(2, 5, 5, "a0226162" + far) for far in ("050001", "0600000001", "140000000000000001")]
TAGGED = value(2, 5, 5, "a0 0041 226162")
LETTERS = value(1, 4, 4, "b0 41 0061 40")

AB = '"ab"'
TO_H = '"a", "b", "c", "d", "e", "f", "g", "h"'
RECORD = "type r = {mutable s : string}"
PARTS = "type r = {mutable s : string; t : string}"
OWNED = "type r = {name : string; mutable owner : _}"
ROUGH = "type r = {mutable s : string; t : bytes}"
SUM = "type t = A | B of string * int | C of {a : string; b : int}"

# FILE, the type, the bytes, and the text of a value that has it
TYPED = [
    ("", "int * string", PAIR, '(5, "ab")'),
    ("", "_ * string", PAIR, '(_, "ab")'),
    ("", "int * _", PAIR, "(5, _)"),
    ("", "string * int", TURNED, '("ab", 5)'),
    ("", "string * string", OTHERS, '("ab", "cd")'),
    ("", "string * bytes", OTHERS, '("ab", "cd")'),
    ("", "string * string", TWICE, '(#0="ab", #0)'),
    ("", "bytes * bytes", TWICE, '(#0="ab", #0)'),
    ("", "string * _", TWICE, '("ab", _)'),
    ("", "_ * string", TWICE, '(_, "ab")'),
    ("", "_ * string * string", FALLING, '(_, "b", "a")'),
    ("", "_ * string * bytes", FALLING, '(_, "b", "a")'),
    ("", "string option * string * string", FALLING, '(Some(#0="a"), "b", #0)'),
    ("", "int * int list", WITH_LIST, "(1, ::(2, []))"),
    ("", "int * int list", NO_LIST, "(1, [])"),
    ("", "int list * int list", LIST_TWICE, "(#0=::(2, []), #0)"),
    ("", "string * int * int list", LAST_LIST, '("ab", 5, ::(1, []))'),
    ("", "int * _", ITSELF, "(5, _)"),
    ("type t = {a : int; b : t}", "t", ITSELF, "#0={a = 5; b = #0}"),
    ("", strings(8), EIGHT, f"({TO_H})"),
    ("", strings(8), EIGHT_ROUND, '(#0="a", "b", "c", "d", "e", "f", "g", #0)'),
    ("", strings(9), NINE, f'({TO_H}, "i")'),
    ("", strings(9, "_"), NINE, f"({TO_H}, _)"),
    ("", strings(9), NINE_ROUND, '(#0="a", "b", "c", "d", "e", "f", "g", "h", #0)'),
    ("", strings(9, "int"), NINE_FIVE, f"({TO_H}, 5)"),
    ("", "string", TEXT, AB),
    ("", "bytes", TEXT, AB),
    ("", "string", EMPTY_TEXT, '""'),
    ("", "float", FLOAT_BIG, "$3ff8000000000000"),
    ("type p = {x : float; y : float}", "p", FLOATS, "{x = $3ff0000000000000; y = $4000000000000000}"),
    ("", "bool", ONE, "true"),
    ("", "int array", ATOM_LONG, "[||]"),
    ("", "int * string array", PAIR_ATOM, "(5, [||])"),
    ("", "int * string array", PAIR_ATOM_LONG, "(5, [||])"),
    ("", "int * float array", PAIR_ATOM_LONGEST, "(5, [||])"),
    (RECORD, "r", CELL, '{s = "ab"}'),
    (RECORD, "r * r", CELLS, '(#0={s = "ab"}, #0)'),
    (PARTS, "r", TWICE, '{s = #0="ab"; t = #0}'),
    (OWNED, "r", TWICE, '{name = "ab"; owner = _}'),
    ("", "string ref", CELL, 'ref("ab")'),
    ("", "string option", CELL, 'Some("ab")'),
    ("", "string array", OTHERS, '[|"ab"; "cd"|]'),
    ("", "string array", TWICE, '[|#0="ab"; #0|]'),
    (SUM, "t", TURNED, 'B("ab", 5)'),
    ("", "[ `A of string ]", TAGGED, '`A("ab")'),
    ("", "bool * char * unit", LETTERS, "(true, 'a', ())"),
    ("", "int * int64", PAIR_LONG, "(5, 7L)"),
    ("", "int * int64", PAIR_LONG_OLD, "(5, 7L)"),
    ("", "int64 * int64", LONG_TWICE, "(#0=7L, #0)"),
    ("", "int32 * int64 * nativeint", CUSTOMS, "(7l, 7L, 7n)"),
    ("", "int * string", LONG_8, f'(5, "{"a" * 40}")'),
    ("", "int * string", LONG_32, f'(5, "{"a" * 40}")'),
    ("", "int * string", LONG_64, f'(5, "{"a" * 40}")'),
    ("", "string", LONGEST, f'"{"x" * 300}"'),
    ("", "int * float", LAST_FLOAT, "(5, $3ff8000000000000)"),
    ("", "int * float array", LAST_FLOATS, "(5, [|$3ff0000000000000; $4000000000000000|])"),
    ("", "int * int", LAST_INT, "(5, 7)"),
    ("", "int * int", LAST_LONG_INT, "(5, -7)"),
] + [("", "string * string", far, '(#0="ab", #0)') for far in LAST_FAR]

# FILE, the type, the bytes, and the line of a value that has it not
UNTYPED = [
    ("", "int * int", PAIR, no(".1", "int", "string")),
    ("", "string * int", PAIR, no(".0", "string", "int 5")),
    ("", "string * bytes", TWICE, conflict(".0", ".1", "string", "bytes")),
    (ROUGH, "r", TWICE, conflict(".0", ".1", "string", "bytes")),
    ("", "string option * string * bytes", FALLING, conflict(".2", ".0.0", "bytes", "string")),
    ("", "int list * int ref", LIST_TWICE, no(".1", "int ref", "block 0 of 2")),
    ("", "int * string", ITSELF, no(".1", "string", "block 0 of 2")),
    ("", strings(8, "bytes"), EIGHT_ROUND, conflict(".0", ".7", "string", "bytes")),
    ("", strings(9, "bytes"), NINE_ROUND, conflict(".0", ".8", "string", "bytes")),
    ("", strings(9), NINE_FIVE, no(".8", "string", "int 5")),
    ("", strings(9), EIGHT, no(".", strings(9), "block 0 of 8")),
    ("", "int", TEXT, no(".", "int", "string")),
    ("", "float * float", FLOAT, no(".", "float * float", "float")),
    ("", "string", ONE, no(".", "string", "int 1")),
    ("", "bool", TWO, no(".", "bool", "int 2")),
    ("", "int * string", PAIR_ATOM, no(".1", "string", "atom 0")),
    ("", "int * string array", PAIR_ATOM_NINE, no(".1", "string array", "atom 9")),
    (RECORD, "r * string ref", CELLS, conflict(".0", ".1", "r", "string ref")),
    ("", "int * int32", PAIR_LONG, no(".1", "int32", "int64")),
    ("", "int * string", LAST_FLOAT, no(".1", "string", "float")),
]

# the type, the bytes, the path, the line, the status
PARTS_AT = [
    ("int * string", PAIR, ".", '(5, "ab")', 0),
    ("int * string", PAIR, ".0", "5", 0),
    ("int * string", PAIR, ".1", AB, 0),
    ("int * string", PAIR, ".1.0", "none", 1),
    ("int * string", PAIR, ".2", "none", 1),
    ("_ * string", PAIR, ".0", "none", 1),
    ("int * int", PAIR, ".1", no(".1", "int", "string"), 1),
    ("string * string", TWICE, ".1", AB, 0),
    ("int * int list", WITH_LIST, ".1", "::(2, [])", 0),
    ("int list * int list", LIST_TWICE, ".1", "::(2, [])", 0),
    (strings(9), NINE_ROUND, ".8", '"a"', 0),
    ("string", TEXT, ".", AB, 0),
    ("[ `A of string ]", TAGGED, ".1", AB, 0),
    ("int * int64", PAIR_LONG, ".1", "7L", 0),
]

# the bytes, and what is said of a value that is cut or refused at its last token or behind it
REFUSED = [
    (PAIR[:22], "Truncated(22)"),
    (PAIR[:23], "Truncated(23)"),
    (PAIR[:24], "Truncated(24)"),
    (value(2, 5, 5, "a045226162", length=6), "LengthMismatch(1) at 25"),
    (value(2, 5, 5, "a045226162", length=6)[:24], "Truncated(24)"),
    (value(2, 5, 5, "a04522616200"), "LengthMismatch(1) at 25"),
    (value(2, 5, 5, "a045226162", length=4), "Overlong(2, 1) at 22"),
    (value(3, 5, 5, "a045226162"), "CountMismatch(3, 2) at 25"),
    (value(3, 5, 5, "a045226162")[:24], "Truncated(24)"),
    (value(1, 5, 5, "a045226162"), "CountMismatch(1, 2) at 25"),
    (value(2, 6, 5, "a045226162"), "SizeMismatch(w32, 6, 5) at 25"),
    (value(2, 5, 6, "a045226162"), "SizeMismatch(w64, 6, 5) at 25"),
    (value(2, 4, 5, "a045226162"), "SizeMismatch(w32, 4, 5) at 22"),
    (value(2, 5, 4, "a045226162"), "SizeMismatch(w64, 4, 5) at 22"),
    (value(2, 15, 10, "a045 0928" + A40)[:-1], "Truncated(63)"),
    (value(3, 15, 10, "a045 0928" + A40), "CountMismatch(3, 2) at 64"),
    (value(2, 5, 5, "a0226162 0403"), "BadShared(3, 2) at 24"),
    (value(2, 5, 5, "a0226162 0400"), "BadShared(0, 2) at 24"),
    (value(0, 5, 5, "a0226162 0401"), "NoTable at 24"),
    (value(3, 5, 5, "a0226162 0401"), "CountMismatch(3, 2) at 26"),
    (value(0, 0, 0, "41", length=2), "LengthMismatch(1) at 21"),
    (value(1, 0, 0, "41"), "CountMismatch(1, 0) at 21"),
    (value(2, 2, 2, "226162"), "CountMismatch(2, 1) at 23"),
]

# the words, the bytes, FILE, lines on out, the line on err, the status
SEVERAL = [
    (["show", "f.ml", "int * string"], PAIR + LONG_8 + PAIR, "", ['(5, "ab")', f'(5, "{"a" * 40}")', '(5, "ab")'], "", 0),
    (["show", "f.ml", "string"], LONGEST + TEXT + EMPTY_TEXT, "", [f'"{"x" * 300}"', AB, '""'], "", 0),
    (["show", "f.ml", "string * string"], TWICE + OTHERS + TWICE, "", ['(#0="ab", #0)', '("ab", "cd")', '(#0="ab", #0)'], "", 0),
    (["show", "f.ml", "int * int list"], WITH_LIST + NO_LIST, "", ["(1, ::(2, []))", "(1, [])"], "", 0),
    (["check", "f.ml", "string"], ONE + TEXT + ONE, "", [no(".", "string", "int 1"), "yes", no(".", "string", "int 1")], "", 1),
    (["check", "f.ml", "string * bytes"], TWICE + OTHERS, "", [conflict(".0", ".1", "string", "bytes"), "yes"], "", 1),
    (["show", "f.ml", "int * string"], ONE + PAIR, "", [no(".", "int * string", "int 1"), '(5, "ab")'], "", 1),
    (["get", "f.ml", "int * string", ".1"], PAIR + ONE + PAIR, "", [AB, no(".", "int * string", "int 1"), AB], "", 1),
    (["show", "f.ml", "string * bytes"], TWICE + OTHERS, "", [conflict(".0", ".1", "string", "bytes"), '("ab", "cd")'], "", 1),
    (["show", "f.ml", "int * string"], PAIR + PAIR[:22], "", ['(5, "ab")'], "value 1: Truncated(22)", 4),
    (["check", "f.ml", "string"], ONE + value(2, 2, 2, "226162") + TEXT, "", [no(".", "string", "int 1")], "value 1: CountMismatch(2, 1) at 23", 4),
    (["check", "--limit", "4", "f.ml", "int * string"], TEXT + PAIR, "", [no(".", "int * string", "string")], "value 1: TooLarge(words, 5, 4)", 4),
    (["show", "f.ml", "string * string"], value(0, 7, 7, "a0226162226364"), "", ['("ab", "cd")'], "", 0),
    (["show", "f.ml", "t"], TURNED + ONE[:20] + b"\x40" + TURNED, SUM, ['B("ab", 5)', "A", 'B("ab", 5)'], "", 0),
    (["show", "f.ml", "t"], value(2, 5, 5, "a1 226162 45"), SUM, ['C{a = "ab"; b = 5}'], "", 0),
    (["show", "f.ml", "int"], ONE + TWO, "", ["1", "2"], "", 0),
    (["check", "f.ml", "float"], FLOAT + FLOAT_BIG, "", ["yes", "yes"], "", 0),
    (["show", "f.ml", "int array"], ATOM + ATOM_LONG + ATOM, "", ["[||]", "[||]", "[||]"], "", 0),
    (["dump"], PAIR, None, ["root #0", "#0 block 0: 5 #1", '#1 string "ab"'], "", 0),
    (["dump"], TWICE + TEXT + ONE, None, ["root #0", "#0 block 0: #1 #1", '#1 string "ab"', "root #0", '#0 string "ab"', "root 1"], "", 0),
]


def cases():
    for file, type_text, stream, text in TYPED:
        yield ["check", "f.ml", type_text], stream, file, ["yes"], "", 0
        yield ["show", "f.ml", type_text], stream, file, [text], "", 0
    for file, type_text, stream, line in UNTYPED:
        yield ["check", "f.ml", type_text], stream, file, [line], "", 1
    for type_text, stream, path, line, status in PARTS_AT:
        yield ["get", "f.ml", type_text, path], stream, "", [line], "", status
    for stream, line in REFUSED:
        yield ["check", "f.ml", "_"], stream, "", [], "value 0: " + line, 4
    yield from SEVERAL


def main():
    for words, stream, file, out, err, status in cases():
        print("\t".join(["run ", stream.hex(), "none" if file is None else "=" + file] + words))
        if sys.argv[1] == "questions":
            continue
        for line in out:
            print(line)
        if err:
            print("err: omarshal: " + err)
        print(f"status {status}")


if len(sys.argv) == 2 and sys.argv[1] in ("questions", "answers"):
    main()
else:
    sys.exit(__doc__)

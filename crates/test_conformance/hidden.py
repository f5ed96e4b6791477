#!/usr/bin/env python3
"""Makes questions on the type `_`, with their answers: the bytes are computed from the values by the rules of docs/FORMAT.md, the lines
are by hand from docs/TYPING.md, docs/TEXTS.md and docs/EDITS.md:

    hidden.py questions      lines of `stdin`
    hidden.py answers        lines of `stdout`
"""
import struct
import sys


class Block:
    def __init__(self, tag, *fields):
        self.tag, self.fields = tag, list(fields)


class Leaf:
    """An object without fields, or a value that is no object: its code and bytes, and its words on 32 and 64 bits."""

    def __init__(self, data, words32=0, words64=0):
        self.data, self.words = data, (words32, words64)


def encoded(root):
    """The bytes of a value, whose integers are from 0 to 63, and whose blocks have tags below 16 and less than 8 fields."""
    numbers, data, words = {}, bytearray(), [0, 0]

    def add(v):
        if isinstance(v, int):
            data.append(0x40 + v)
        elif isinstance(v, Leaf) and v.words == (0, 0):
            data.extend(v.data)
        elif id(v) in numbers:
            data.extend([4, len(numbers) - numbers[id(v)]])
        else:
            numbers[id(v)] = len(numbers)
            own = v.words if isinstance(v, Leaf) else (1 + len(v.fields),) * 2
            words[0] += own[0]
            words[1] += own[1]
            if isinstance(v, Leaf):
                data.extend(v.data)
                return
            data.append(0x80 + v.tag + 16 * len(v.fields))
            for field in v.fields:
                add(field)

    add(root)
    header = (len(data), len(numbers), *words)
    return b"\x84\x95\xa6\xbe" + b"".join(n.to_bytes(4, "big") for n in header) + bytes(data)


def atom(tag):
    return Leaf(bytes([0x80 + tag]))


def integer(n):
    """One from 64 to 127."""
    return Leaf(bytes([0, n]))


def text(s):
    return Leaf(bytes([0x20 + len(s)]) + s.encode(), 1 + (len(s) + 4) // 4, 1 + (len(s) + 8) // 8)


def double(x):
    return Leaf(b"\x0c" + struct.pack("<d", x), 3, 2)


def doubles(*xs):
    return Leaf(bytes([0x0E, len(xs)]) + b"".join(struct.pack("<d", x) for x in xs), 1 + 2 * len(xs), 1 + len(xs))


def int32(n):
    return Leaf(b"\x19_i\0" + n.to_bytes(4, "big", signed=True), 3, 3)


def int64(n):
    return Leaf(b"\x19_j\0" + n.to_bytes(8, "big", signed=True), 4, 3)


def native(n):
    return Leaf(b"\x19_n\0\x01" + n.to_bytes(4, "big", signed=True), 3, 3)


def cyclic():
    cell = Block(0, 1)
    cell.fields.append(cell)
    return cell


R = Block(0, 0)  # ref 0
SHARED = Block(0, R, R)
BELOW = Block(0, Block(0, R, 1), R)
BELOW_LAST = Block(0, R, Block(0, R, 1))
TWO = Block(0, 1, 2)
HIDDEN_TEXT = Block(0, text("tea"), text("x"))
OPTION = Block(0, 0)
PARTS = Block(0, R, 1)
SHARED_PARTS = Block(0, PARTS, PARTS)
LIST = Block(0, 1, Block(0, 2, 0))
TAGGED = Block(0, integer(65), text("x"))
EACH = [5, atom(0), atom(9), text("abc"), double(1.0), doubles(1.0, 2.0), int32(7), int64(7), native(7), Block(7, 1, 2), cyclic(), SHARED]
RECORD = "type item = { name : string; mutable owner : _ }"
MIXED = "type r = { x : float; y : _ }"
INLINE = "type r = R of { x : float; y : _ }"
ROUGH = "no .0 and .1: _ ref and int ref share a mutable object"

PAIRS = (Block(0, 1, 2), Block(0, 3, 4))

# words, a value or values or a text, FILE, lines on out, the line on err, status
CASES = (
    [(["check", "_"], v, "", ["yes"], "", 0) for v in EACH]
    + [(["show", "_"], v, "", ["_"], "", 0) for v in EACH]
    + [
        (["get", "_", "."], cyclic(), "", ["_"], "", 0),
        (["get", "_", ".0"], cyclic(), "", ["none"], "", 1),
        (["dump", None], SHARED, None, ["root #0", "#0 block 0: #1 #1", "#1 block 0: 0"], "", 0),
        (["trees", "_"], SHARED, "", ["sound 0"], "", 0),
        # an array has the length that it has
        (["check", "_ array"], atom(0), "", ["yes"], "", 0),
        (["check", "_ array"], TWO, "", ["yes"], "", 0),
        (["check", "_ array"], SHARED, "", ["yes"], "", 0),
        (["check", "_ array"], doubles(1.0, 2.0), "", ["yes"], "", 0),
        (["check", "_ array"], 5, "", ["no .: expected _ array, found int 5"], "", 1),
        (["check", "_ array"], atom(9), "", ["no .: expected _ array, found atom 9"], "", 1),
        (["check", "_ array"], Block(1, 5), "", ["no .: expected _ array, found block 1 of 1"], "", 1),
        (["check", "_ array"], text("abc"), "", ["no .: expected _ array, found string"], "", 1),
        (["check", "_ array"], double(1.0), "", ["no .: expected _ array, found float"], "", 1),
        (["check", "t array"], doubles(1.0), "type t = _", ["yes"], "", 0),
        (["show", "_ array"], atom(0), "", ["[||]"], "", 0),
        (["show", "_ array"], SHARED, "", ["[|_; _|]"], "", 0),
        (["show", "_ array"], doubles(1.0, 2.0), "", ["[|_; _|]"], "", 0),
        (["get", "_ array", ".0"], TWO, "", ["none"], "", 1),
        # what is hidden is no part of a conflict
        (["check", "int ref * _"], SHARED, "", ["yes"], "", 0),
        (["check", "_ * int ref"], SHARED, "", ["yes"], "", 0),
        (["check", "int ref * bool ref"], SHARED, "", ["no .0 and .1: int ref and bool ref share a mutable object"], "", 1),
        (["check", "_ * int ref"], BELOW, "", ["yes"], "", 0),
        (["check", "int ref * _"], BELOW_LAST, "", ["yes"], "", 0),
        (["check", "_ * string ref"], BELOW, "", ["no .1.0: expected string, found int 0"], "", 1),
        (["check", "_ ref * int ref"], SHARED, "", [ROUGH], "", 1),
        (["check", "_ ref * _ ref"], SHARED, "", ["yes"], "", 0),
        (["check", "_ ref * t ref"], SHARED, "type t = _", ["yes"], "", 0),
        (["check", "_ array * _ array"], SHARED, "", ["yes"], "", 0),
        (["check", "_ array * int array"], SHARED, "", ["no .0 and .1: _ array and int array share a mutable object"], "", 1),
        # labels count what has a type
        (["show", "_ * int ref"], SHARED, "", ["(_, ref(0))"], "", 0),
        (["show", "int ref * _"], SHARED, "", ["(ref(0), _)"], "", 0),
        (["show", "_ * int ref"], BELOW, "", ["(_, ref(0))"], "", 0),
        (["show", "_ * int ref * int ref"], Block(0, R, R, R), "", ["(_, #0=ref(0), #0)"], "", 0),
        (["show", "_ * _"], SHARED, "", ["(_, _)"], "", 0),
        (["show", "_ option"], Block(0, text("x")), "", ["Some(_)"], "", 0),
        (["show", "_ option"], 0, "", ["None"], "", 0),
        (["show", "_ list"], LIST, "", ["::(_, ::(_, []))"], "", 0),
        (["show", "item"], HIDDEN_TEXT, RECORD, ['{name = "tea"; owner = _}'], "", 0),
        (["show", "t"], TAGGED, "type t = [ `A of _ ]", ["`A(_)"], "", 0),
        (["check", "_ list"], Block(0, 1, 5), "", ["no .1: expected _ list, found int 5"], "", 1),
        # no path leads there
        (["get", "item", ".0"], HIDDEN_TEXT, RECORD, ['"tea"'], "", 0),
        (["get", "item", ".1"], HIDDEN_TEXT, RECORD, ["none"], "", 1),
        (["get", "_ * int ref", ".0.0"], SHARED, "", ["none"], "", 1),
        (["get", "_ * int ref", ".1"], SHARED, "", ["ref(0)"], "", 0),
        (["edit", "_", ""], SHARED, "", SHARED, "", 0),
        (["edit", "item", ""], HIDDEN_TEXT, RECORD, HIDDEN_TEXT, "", 0),
        (["edit", "item", '0 set .0 = "x"'], HIDDEN_TEXT, RECORD, Block(0, text("x"), text("x")), "", 0),
        (["edit", "item", "0 set .1 = 5"], HIDDEN_TEXT, RECORD, None, "script line 1: NoField(left, 0)", 5),
        (["edit", "int * _", "0 unshare .1"], SHARED_PARTS, "", None, "value 0: no .0: expected int, found block 0 of 2", 1),
        (["edit", "(_ * int) * _", "0 unshare .1"], SHARED_PARTS, "", None, "script line 1: NoField(left, 0)", 5),
        (["edit", "(_ * int) * _", "0 link .0.1 = .1"], SHARED_PARTS, "", None, "script line 1: NoField(right, 0)", 5),
        (["edit", "(_ * int) * _", "0 link .0.0 = .0.1"], SHARED_PARTS, "", None, "script line 1: NoField(left, 1)", 5),
        (["edit", "(_ * int) * _", "0 set .0.1 = 5"], SHARED_PARTS, "", "both", "", 0),
        (["edit", "(_ * int) * _", "0 unshare .0\n0 set .0.1 = 5"], SHARED_PARTS, "", Block(0, Block(0, R, 5), Block(0, R, 1)), "", 0),
        (["edit", "int option * _", "0 set .0.0 = 5"], Block(0, OPTION, OPTION), "", "five", "", 0),
        # no literal says what is hidden, but that it is an object of its own
        (["edit", "_", "0 set . = 5"], 7, "", None, "script line 1: Literal Misfit at 10: expected _", 5),
        (["edit", "int * _", "0 set . = (1, 2)"], TWO, "", None, "script line 1: Literal Misfit at 14: expected _", 5),
        (["edit", "int * _", "0 set . = (1, _)"], TWO, "", None, "script line 1: Literal Syntax at 14", 5),
        (["edit", "int * _", "0 set . = (1, #0=ref(1))"], TWO, "", None, "script line 1: Literal Misfit at 17: expected _", 5),
        (["edit", "int ref * _", "0 set . = (#0=ref(0), #0)"], Block(0, R, 1), "", SHARED, "", 0),
        (["edit", "_ array", "0 set . = [||]"], TWO, "", atom(0), "", 0),
        (["edit", "_ array", "0 set . = [|1|]"], TWO, "", None, "script line 1: Literal Misfit at 12: expected _", 5),
        (["build", "_"], b"5\n", "", None, "text line 1: Misfit at 0: expected _", 5),
        (["build", "int * _"], b"(1, _)\n", "", None, "text line 1: Syntax at 4", 5),
        (["build", "int ref * _"], b"(#0=ref(0), #0)\n", "", SHARED, "", 0),
        (["build", "_ option"], b"None\n", "", 0, "", 0),
        # no certificate names what is hidden, but the root
        (["check", "--cert", "int ref * _"], SHARED, "", ["value 0 yes", "pair 0 0", "pair 1 1", "end"], "", 0),
        (["check", "--cert", "_"], SHARED, "", ["value 0 yes", "pair 0 0", "end"], "", 0),
        (["verify", "int ref * _", "value 0 yes\npair 0 0\npair 1 1\nend\n"], SHARED, "", ["yes"], "", 0),
        (["verify", "int ref * _", "value 0 yes\npair 0 0\nend\n"], SHARED, "", None, "value 0: certificate Need(0, 0)", 12),
        (["verify", "_", "value 0 yes\npair 0 0\nend\n"], SHARED, "", ["yes"], "", 0),
        # no copy is made of a hidden part, nor in place of one, but for the root
        (["edit", "int * _", "1 graft .1 = 0 ."], PAIRS, "", PAIRS[:1], "script line 1: NoField(left, 0)", 5),
        (["edit", "int * _", "1 graft .0 = 0 .1"], PAIRS, "", PAIRS[:1], "script line 1: NoField(right, 0)", 5),
        (["edit", "_", "1 graft . = 0 ."], PAIRS, "", (PAIRS[0], PAIRS[0]), "", 0),
        # what does not depend on types
        (["edit", "--compat32", "_", ""], Leaf(b"\2\x40\0\0\0"), "", None, "value 0: Compat(int, 1073741824)", 11),
        # what is refused, and what the words ask for
        (["check", "int _"], 5, "", None, "type: Arity at 4", 3),
        (["check", "_"], 5, "type _ = int", None, "types: Twice at 5", 3),
        (["check", "[ _ | `A ]"], 5, "", None, "type: NotVariant at 2", 3),
        (["show", "t"], Block(0, 5), "type t = { _ : int }", ["{_ = 5}"], "", 0),
        # whether a record of floats is flat does not depend on what is hidden
        (["check", "r"], Block(0, double(1.0), 5), MIXED, None, "types: MixedRecord at 5", 3),
        (["check", "r"], doubles(1.0, 2.0), MIXED, None, "types: MixedRecord at 5", 3),
        (["check", "int"], 5, MIXED, None, "types: MixedRecord at 5", 3),
        (["check", "r"], Block(0, double(1.0), 5), INLINE, ["yes"], "", 0),
        (["show", "r"], Block(0, double(1.0), double(2.0)), INLINE, ["R{x = $3ff0000000000000; y = _}"], "", 0),
        (["check", "r"], doubles(1.0, 2.0), INLINE, ["no .: expected r, found float array of 2"], "", 1),
        # another rule is broken too
        (["check", "int"], 5, "type r = { x : float; y : _ } type s = { x : f } and f = float", None, "types: FloatInGroup at 35", 3),
        (["check", "t"], 5, MIXED, None, "types: MixedRecord at 5", 3),
    ]
)

SHAPES = [
    ("_", "", ["0 _: anything; as 0; { }"]),
    ("_ array", "", ["0 _ array: array of anything 1; as 0; { }", "1 _: anything; as 1; { }"]),
    ("_ list", "", ["0 _ list: sum 1, 1 0; as 0; [] ::( ) { }", "1 _: anything; as 1; { }"]),
    ("_ ref", "", ["0 _ ref: sum 0, mutable 1; as 0; ref( ) { }", "1 _: anything; as 1; { }"]),
]

TEXTS = [
    ("decls type t = _", "accepted"),
    ("decls type _ = int", "types: Twice at 5"),
    ("decls type t = int _", "types: Arity at 13"),
    ("decls type t = { _ : int }", "accepted"),
    ("decls type t = { _ : int; _ : int }", "types: Twice at 20"),
    ("decls type '_ t = '_ list", "accepted"),
    ("decls type 'a p = 'a * _ type t = _ p", "accepted"),
    ("decls type t = [ _ | `A ]", "types: NotVariant at 11"),
    ("type _ over ", "accepted"),
    ("type (_, _) t over type ('a, 'b) t = 'a * 'b", "accepted"),
    ("type int _ over ", "type: Arity at 4"),
]

# FILE with a mark before the name of the first mixed record, or without a mark where none is mixed
RECORDS = [
    "type r = { x : float; y : float }",
    "type r = { x : _; y : _ }",
    "type r = { x : float; y : _; z : int }",
    "type r = { x : float; y : _ list }",
    "type r = { x : float array; y : _ }",
    "type 'a r = { x : 'a; y : _ } type s = float r",
    "type 'a r = { x : float; y : 'a } type s = _ r",
    "type r = float * _",
    "type r = R of { x : float; y : _ }",
    "type r = { x : float; y : int } type h = _",
    "type ¦r = { x : float; y : _ }",
    "type ¦r = { y : _; mutable x : float; z : float; }",
    "type f = float type h = _ type ¦r = { x : f; y : h }",
    "type ¦r = { x : float; y : h } and h = _",
    "type ¦r = { x : f; y : _ } and f = float",
    "type 'a id = 'a type ¦r = { x : float id; y : _ id }",
    "type 'a h = _ type 'a ¦r = { x : float; y : 'a h }",
    "type t = { x : int } and ¦r = { x : float; y : _ } and s = { y : _; x : float }",
    "type a = A of { x : float; y : _ } type ¦r = { x : float; y : _ }",
]


def mixed(marked):
    """The question about a FILE, and its answer."""
    before, mark, after = marked.partition("¦")
    return "decls " + before + after, f"types: MixedRecord at {len(before)}" if mark else "accepted"


def changed(what):
    """A value in which an edit is seen at two paths."""
    part = Block(0, R, 5) if what == "both" else Block(0, 5)
    return Block(0, part, part)


def all_encoded(values):
    """The bytes of one value, or of some."""
    return b"".join(map(encoded, values)) if isinstance(values, tuple) else encoded(values)


def run(words, given, file, out, err, status):
    """The question, and the lines of its answer."""
    flags = [w for w in words[1:] if w is not None and w.startswith("--")]
    rest = [w for w in words[1:] if w is not None and w not in flags]
    with_script = words[0] in ("edit", "verify")
    settings = ["script=" + rest[1].encode().hex()] if with_script else []
    data = given if isinstance(given, bytes) else all_encoded(given)
    if file is None:
        fields = [words[0]]
    else:
        fields = [words[0], *flags, "f.ml", rest[0], *(["script"] if with_script else rest[1:])]
    question = "\t".join(["run " + " ".join(settings), data.hex(), "none" if file is None else "=" + file] + fields)
    answer = []
    if isinstance(out, list):
        answer += out
    elif out is not None:
        answer.append("values: " + all_encoded(changed(out) if isinstance(out, str) else out).hex())
    if err:
        answer.append("err: omarshal: " + err)
    return question, answer + [f"status {status}"]


def main():
    rows = [(question, [answer]) for question, answer in TEXTS + [mixed(record) for record in RECORDS]]
    for type_text, file, lines in SHAPES:
        rows.append((f"table {type_text} over {file}", [f"expands to {type_text}"] + lines))
    rows += [run(*case) for case in CASES]
    for question, answer in rows:
        print(question)
        if sys.argv[1] == "answers":
            print("\n".join(answer))


if len(sys.argv) == 2 and sys.argv[1] in ("questions", "answers"):
    main()
else:
    sys.exit(__doc__)

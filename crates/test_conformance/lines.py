#!/usr/bin/env python3
"""Makes the questions of `run` with `--lines`, with their answers worked out apart from the rules: in each text a mark shows
the position, whose line and column are counted here.

    lines.py questions      lines of `stdin`
    lines.py answers        lines of `stdout`
"""
import re
import sys

MARK = "¦"
# Refusals that contain the name at their position, if lines are asked for.
NAMED = ("Twice", "UnknownName", "Arity", "UnboundVar", "Cyclic", "Irregular", "TooManyConstructors", "FloatInGroup", "MixedRecord")
LIST = bytes.fromhex("8495a6be00000005000000020000000600000006a041a04240")
TEXT = bytes.fromhex("8495a6be0000000400000001000000020000000223616263")


def split(marked):
    """The bytes of a text, and how many of them come before the mark."""
    before, after = marked.split(MARK)
    return (before + after).encode(), len(before.encode())


def refusal(name, text, position, lines):
    """What is refused at a position in a text, and the position."""
    found = re.match(rb"[`']?[A-Za-z_][A-Za-z0-9_']*", text[position:])
    shown = f"({found[0].decode()})" if lines and name in NAMED else ""
    return f"{name}{shown} at {whole(text, position, lines)}"


def whole(text, position, lines):
    """A position in a text."""
    before = text[:position]
    line, column = before.count(b"\n") + 1, position - (before.rfind(b"\n") + 1) + 1
    return f"{line}:{column}" if lines else str(position)


def of_line(text, position, lines):
    """The line of a position in several lines, and the position in that line."""
    before = text[:position]
    line, byte = before.count(b"\n") + 1, position - (before.rfind(b"\n") + 1)
    return line, f"{line}:{byte + 1}" if lines else str(byte)


def words_of(command, lines, file, type_text, more=()):
    return command + (["--lines"] if lines else []) + [file, type_text] + list(more)


questions, answers = [], []


def ask(settings, given, file, words, out, err, status):
    question = "\t".join(["run " + settings, given.hex(), file] + words)
    questions.append(question)
    answers.append(question)
    answers.extend(out)
    if err:
        answers.append("err: omarshal: " + err)
    answers.append(f"status {status}")


def both(make):
    for lines in (False, True):
        make(lines)


# ---- FILE

DECLARATIONS = [
    ("Twice", "type t =\n  | A\n  | ¦A\n"),
    ("UnknownName", "type t = int\ntype u = ¦v list\n"),
    ("Twice", "(* one\n  two *)\ntype t = { a : int\n; ¦a : int }"),
    ("Syntax", "type t =\n¦"),
    ("Syntax", "type t =¦"),
    ("OpenComment", "type t = int\n\n¦(* open\n"),
    ("OpenString", "type t = int\n(* a *) ¦\"open\ntype u = int"),
    ("BadByte", "type t =\n\tint ¦? list"),
    ("BadByte", "(* é *) type t = ¦? list"),
    ("UnknownName", "type t = int\r\n\r\ntype u = ¦w\r\n"),
    ("Cyclic", "type t = int\ntype ¦u = v\nand v = u\n"),
    ("Arity", "type 'a t = 'a list\n type u =\n  ¦t"),
    ("BadByte", "¦?\n"),
    ("BadByte", "\n\n\n¦?"),
    # the name that is refused
    ("Twice", "type t = [ `A | `B of int\n| ¦`A ]"),
    ("Twice", "type ('a, ¦'a) t = int"),
    ("Twice", "type ¦int = string"),
    ("UnknownName", "type t =\n  ¦a_b'(* c *)list"),
    ("UnknownName", "type t = ¦_a"),
    ("UnboundVar", "type 'a t =\n'a * ¦'type * 'b"),
    ("Arity", "type t = (int, string)¦list"),
    ("Irregular", "type 'a t = N | C of\n'a list ¦t"),
    ("TooManyConstructors", "type t =" + "".join(f" | C{n} of int" for n in range(244)) + "\n| ¦Last'1 of int"),
    ("FloatInGroup", "type\n¦r = { x : f } and f = float"),
    ("MixedRecord", "type t = int\ntype ¦r = { x : float; y : _ }"),
    # what an item of a bracket begins with is no name of a refusal
    ("NotVariant", "type t =\n[ ¦int list | `A ]"),
    ("NotVariant", "type t =\n[ ¦(int * int) list | `A ]"),
    ("TagClash", "type u = [ `A of int ]\ntype t = [ u | ¦`A ]"),
    ("HashClash", "type t =\n[ `azdwbie | ¦`c7diagq ]"),
    ("TooDeep", "type t =\n" + "(" * 200 + "¦("),
]

for name, marked in DECLARATIONS:
    text, position = split(marked)
    both(lambda lines: ask(
        "file=" + text.hex(), b"", "none", words_of(["check"], lines, "f.ml", "int"), [],
        f"types: {refusal(name, text, position, lines)}", 3))

# the other commands with FILE
TWICE, AT = split(DECLARATIONS[0][1])
for command, more in ((["show"], []), (["get"], ["."]), (["trees"], []), (["build"], []), (["check", "--cert"], []),
                      (["verify"], ["script"]), (["edit"], ["script"])):
    both(lambda lines: ask(
        "file=" + TWICE.hex(), b"", "none", words_of(command, lines, "f.ml", "t", more), [],
        f"types: {refusal('Twice', TWICE, AT, lines)}", 3))

# ---- TYPE

TYPES = [
    ("UnknownName", "int ¦lis"),
    ("Syntax", "int *¦"),
    ("Syntax", "int ¦)"),
    ("BadByte", "(* a\n b *)\n int ¦?"),
    ("UnknownName", "int\n* ¦u"),
    ("OpenComment", "int\n ¦(*"),
    ("UnknownName", "(* foo *) ¦foo"),
    ("Arity", "int\n¦int"),
    ("Twice", "[ `A\n| ¦`A of int ]"),
    ("NotVariant", "[ ¦int | `A ]"),
]

for name, marked in TYPES:
    text, position = split(marked)
    both(lambda lines: ask(
        "word=" + text.hex(), b"", "=", ["check"] + (["--lines"] if lines else []) + ["f.ml"], [],
        f"type: {refusal(name, text, position, lines)}", 3))

# ---- SCRIPT

SCRIPTS = [
    ("Syntax", "0 set .0 = 5\n0 ¦foo\n"),
    ("BadByte", "\n\n0 set .0 = ¦?"),
    ("OpenComment", "0 set .0 = 5\n 0 set ¦(* .0 = 5\n"),
    ("TooBig", "0 set .0 = ¦18446744073709551616"),
]

for name, marked in SCRIPTS:
    text, position = split(marked)

    def script(lines):
        line, at = of_line(text, position, lines)
        ask("script=" + text.hex(), LIST, "=", words_of(["edit"], lines, "f.ml", "int list", ["script"]), [],
            f"script line {line}: {name} at {at}", 5)

    both(script)

LITERALS = [
    ("Syntax", "int list", LIST, "0 set .0 =¦", ""),
    ("Syntax", "int list", LIST, "0 set .0 = 5\n0 set .0 = ¦= 5", ""),
    ("Misfit", "int list", LIST, "\n0 set .0 = ¦\"a\"", ": expected int"),
    ("Misfit", "string", TEXT, "0 set . = ¦5", ": expected string"),
    ("IntRange", "int list", LIST, "  0 set .0 = ¦4611686018427387904", ""),
    ("Label", "int list", LIST, "(* a *) 0 set .1 = ¦#1=[]", ""),
]

for name, type_text, given, marked, behind in LITERALS:
    text, position = split(marked)

    def literal(lines):
        line, at = of_line(text, position, lines)
        ask("script=" + text.hex(), given, "=", words_of(["edit"], lines, "f.ml", type_text, ["script"]), [],
            f"script line {line}: Literal {name} at {at}{behind}", 5)

    both(literal)

# what is no position in a text is reported as ever
for text, known in (("0 set .1 = ::(7, [])\n0 set .2 = 1", "2: NoField(left, 0)"), ("\n0 link . = .5", "2: NoField(right, 0)"),
                   ("0 unshare .0", "1: NotBlock"), ("\n7 set . = []", "2: NoValue"), ("0 graft . = 0 .", "1: Later")):
    def other(lines):
        out = []
        if known.endswith("NoValue"):
            out = ["values: " + LIST.hex()]
        ask("script=" + text.encode().hex(), LIST, "=", words_of(["edit"], lines, "f.ml", "int list", ["script"]), out,
            "script line " + known, 5)

    both(other)

# ---- lines of the input

LINES = [
    ("Syntax", "1\n\n2 ¦3\n4\n", "", 1),
    ("Misfit", "¦\"a\"", ": expected int", 0),
    ("IntRange", "1\n2\n (* a *) ¦4611686018427387904\n", "", 2),
    ("BadByte", "\n\n¦?\n", "", 0),
    ("OpenString", "1\n\t¦\"a\n", "", 1),
]

for name, marked, behind, before in LINES:
    text, position = split(marked)

    def texts(lines):
        line, at = of_line(text, position, lines)
        out = ["values: " + "".join(
            (b"\x84\x95\xa6\xbe" + bytes([0, 0, 0, 1]) + bytes(12) + bytes([0x40 + n + 1])).hex() for n in range(before))]
        ask("", text, "=", words_of(["build"], lines, "f.ml", "int"), out if before else [],
            f"text line {line}: {name} at {at}{behind}", 5)

    both(texts)

# ---- nothing is refused, and the flag of commands without FILE

ask("", LIST, "=", ["check", "--lines", "f.ml", "int list"], ["yes"], "", 0)
ask("", LIST, "=", ["show", "--pretty", "--lines", "f.ml", "int list"], ["::(1, ::(2, []))"], "", 0)
ask("", LIST, "=", ["check", "f.ml", "--lines", "int list"], ["yes"], "", 0)
ask("", LIST + b"hello", "=", ["check", "--lines", "f.ml", "int list"], ["yes"], "value 1: BadMagic(68656c6c)", 4)
ask("", LIST, "none", ["check", "--lines", "f.ml", "int list"], [], "cannot open f.ml", 8)
for command in (["dump"], ["same"], ["scan"], ["gen", "1", "1", "int"]):
    ask("", LIST, "=", command + ["--lines"], [], "usage", 2)
ask("", LIST, "=", ["check", "--lines", "--lines", "f.ml", "int list"], [], "usage", 2)

for line in questions if sys.argv[1:] == ["questions"] else answers:
    print(line)

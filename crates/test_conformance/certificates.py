#!/usr/bin/env python3
"""Makes the questions of `run` on `verify` and `check --cert`, with their answers worked out by hand from the format of certificates, the
rules of what a certificate entry has to show, and the order of its reasons (docs/CERTIFICATES.md):

    certificates.py questions      lines of `stdin`
    certificates.py answers        lines of `stdout`
"""
import sys


def value(objects, words32, words64, body):
    data = bytes.fromhex(body)
    return b"\x84\x95\xa6\xbe" + b"".join(n.to_bytes(4, "big") for n in (len(data), objects, words32, words64)) + data


LIST = value(3, 9, 9, "a041a042a04340")  # [1; 2; 3]
CYCLIC = value(1, 3, 3, "a0410401")  # a list that is its own tail
SHARED = value(2, 5, 5, "a090400401")  # (r, r)
TWICE = value(2, 6, 6, "a0a041400401")  # (l, l) for l = [1]
TAG = value(1, 3, 3, "a0004145")  # `A 5
TEXT_TAG = value(2, 5, 5, "a000412178")  # `A "x"
ONE = value(0, 0, 0, "41")  # 1
NIL = value(0, 0, 0, "40")  # []
TEXT = value(1, 2, 2, "23616263")  # "abc"

REFS = "int ref * bool ref"
SHARE = "no .0 and .1: int ref and bool ref share a mutable object"


def yes(*pairs, number=0):
    return f"value {number} yes\n" + "".join(f"pair {p}\n" for p in pairs) + "end\n"


def states(fault, number=0):
    return f"value {number} {fault}\nend\n"


def syntax(line):
    return f"certificate line {line}: Syntax"


ALL = yes("0 0", "1 0", "2 0")

# settings, input, FILE, TYPE, CERT, lines on out, the line on err, status
CASES = [
    ("", CYCLIC, "", "int list", yes("0 0"), ["yes"], "", 0),
    ("", LIST, "", "int list", ALL, ["yes"], "", 0),
    ("", SHARED, "", REFS, states("clash .0 .1"), [SHARE], "", 1),
    ("", LIST, "", "int list", yes("0 0"), [], "value 0: certificate Need(0, 1)", 12),
    ("", LIST, "", "int list", yes("0 0", "1 0", "2 0", "3 0"), [], "value 0: certificate Range(3)", 12),
    ("", LIST, "", "int list", yes("0 0", "0 9"), [], "value 0: certificate Range(1)", 12),
    ("", LIST, "", "int list", yes("0 9223372036854775807"), [], "value 0: certificate Range(0)", 12),
    ("", LIST, "", "int list", yes("0 1"), [], "value 0: certificate Unfit(0)", 12),
    ("", LIST, "", "int list", yes("1 0", "2 0"), [], "value 0: certificate Root", 12),
    ("", LIST, "", "int list", yes(), [], "value 0: certificate Root", 12),
    ("", ONE, "", "int", yes(), ["yes"], "", 0),
    ("", SHARED, "", REFS, yes("0 0", "1 1", "1 2"), [], "value 0: certificate TwoTypes(1)", 12),
    ("", LIST, "", "int list", states("misfit .0"), [], "value 0: certificate NotFault", 12),
    ("", SHARED, "", REFS, states("clash .1 .0"), [], "value 0: certificate NotFault", 12),
    ("", LIST, "", "bool list", states("misfit .1.1.0"), ["no .1.1.0: expected bool, found int 3"], "", 1),
    ("", LIST, "", "bool list", states("misfit .1.0"), ["no .1.0: expected bool, found int 2"], "", 1),
    # no certificate
    ("", LIST, "", "int list", yes("0 0", "00 0"), [], syntax(3), 12),
    ("", LIST, "", "int list", yes("0 0", "0 0"), [], syntax(3), 12),
    ("", LIST, "", "int list", yes("0 9223372036854775808"), [], syntax(2), 12),
    ("", LIST, "", "int list", yes(number=1), [], syntax(1), 12),
    ("", LIST, "", "int list", ALL.replace("yes\n", "yes \n"), [], syntax(1), 12),
    ("", LIST, "", "int list", states("misfit .00"), [], syntax(1), 12),
    ("", LIST, "", "int list", "value 0 misfit .0\npair 0 0\nend\n", [], syntax(2), 12),
    ("", LIST, "", "int list", "value 0 yes\npair 0 0\n", [], syntax(3), 12),
    ("", LIST, "", "int list", "value 0 yes\nend", [], syntax(2), 12),
    # entries and values
    ("", LIST, "", "int list", "", [], "value 0: no section", 12),
    ("", LIST, "", "int list", ALL + yes(number=1), ["yes"], "sections left", 12),
    ("", b"", "", "int list", "", [], "", 0),
    ("", b"", "", "int list", yes(), [], "sections left", 12),
    ("", LIST + LIST, "", "int list", ALL + states("misfit .0", 1), ["yes"], "value 1: certificate NotFault", 12),
    ("", LIST + CYCLIC, "", "int list", ALL + yes("0 0", number=1), ["yes", "yes"], "", 0),
    ("", LIST + LIST, "", "int list", ALL, ["yes"], "value 1: no section", 12),
    ("", LIST + b"\x00", "", "int list", yes("0 0"), [], "value 0: certificate Need(0, 1)", 12),
    ("", b"\x00", "", "int list", "value", [], syntax(1), 12),
    ("", LIST[:22], "", "int list", "", [], "value 0: Truncated(22)", 4),
    ("", LIST[:22], "", "int list", ALL, [], "value 0: Truncated(22)", 4),
    ("", LIST + LIST[:22], "", "int list", ALL + yes(number=1), ["yes"], "value 1: Truncated(22)", 4),
    # equal types, and the argument of a tag
    ("", TWICE, "type i = int type t = i list * int list", "t", yes("0 0", "1 1"), ["yes"], "", 0),
    ("", TWICE, "type i = int type t = i list * int list", "t", yes("0 0", "1 2"), ["yes"], "", 0),
    ("", TAG, "", "[`A of int]", yes("0 0"), ["yes"], "", 0),
    ("", TEXT_TAG, "", "[`A of int]", yes("0 0"), [], "value 0: certificate Need(0, 1)", 12),
    # files, words and calls that fail
    ("none", LIST, "", "int list", "", [], "cannot open script", 8),
    ("none", LIST, "", "int lst", "", [], "type: UnknownName at 4", 3),
    ("", LIST, "type t = item", "int list", "value", [], "types: UnknownName at 9", 3),
    ("fetch=0", LIST, "", "int list", ALL, [], "cannot open f.ml", 8),
    ("fetch=1", LIST, "", "int list", ALL, [], "cannot open script", 8),
    ("take=0", LIST, "", "int list", ALL, [], "read fault", 6),
    ("take=1", LIST, "", "int list", ALL, ["yes"], "read fault", 6),
    ("words", LIST, "", "int list", ALL, [], "usage", 2),
]

CERT = ["check", "--cert", "f.ml"]

# settings, input, FILE, words, standard output, the line on standard error, status
WRITTEN = [
    ("", CYCLIC, "", CERT + ["int list"], yes("0 0"), "", 0),
    ("", LIST, "", CERT + ["int list"], ALL, "", 0),
    ("", SHARED, "", CERT + [REFS], states("clash .0 .1"), "", 1),
    ("", SHARED, "", CERT + ["int ref * int ref"], yes("0 0", "1 1"), "", 0),
    ("", SHARED, "", CERT + ["int option * bool option"], yes("0 0", "1 1", "1 2"), "", 0),
    ("", LIST, "", CERT + ["bool list"], states("misfit .1.0"), "", 1),
    ("", ONE, "", CERT + ["int"], yes(), "", 0),
    ("", ONE, "", CERT + ["int list"], states("misfit ."), "", 1),
    ("", TEXT, "", CERT + ["string"], yes("0 0"), "", 0),
    ("", TAG, "", CERT + ["[`A of int]"], yes("0 0"), "", 0),
    ("", TEXT_TAG, "", CERT + ["[`A of int]"], states("misfit .1"), "", 1),
    # of equal types the least number; a type with a variable
    ("", TWICE, "type i = int type t = i list * int list", CERT + ["t"], yes("0 0", "1 1"), "", 0),
    ("", NIL, "", CERT + ["'a list"], yes(), "", 0),
    ("", LIST, "", CERT + ["'a list"], states("misfit .0"), "", 1),
    # values by their numbers, up to what stops the run
    ("", b"", "", CERT + ["int list"], "", "", 0),
    ("", LIST + CYCLIC, "", CERT + ["int list"], ALL + yes("0 0", number=1), "", 0),
    ("", CYCLIC + LIST, "", CERT + ["bool list"], yes("0 0") + states("misfit .1.0", 1), "", 1),
    ("", LIST + CYCLIC, "", CERT + ["bool list"], states("misfit .1.0") + yes("0 0", number=1), "", 1),
    ("", LIST + b"hello", "", CERT + ["int list"], ALL, "value 1: BadMagic(68656c6c)", 4),
    ("", LIST + b"hello", "", CERT + ["bool list"], states("misfit .1.0"), "value 1: BadMagic(68656c6c)", 4),
    ("", LIST[:22], "", CERT + ["int list"], "", "value 0: Truncated(22)", 4),
    ("", LIST + LIST[:22], "", CERT + ["int list"], ALL, "value 1: Truncated(22)", 4),
    # words
    ("", CYCLIC + LIST, "", ["check", "--cert", "--limit", "5", "f.ml", "int list"], yes("0 0"), "value 1: TooLarge(words, 9, 5)", 4),
    ("", CYCLIC + LIST, "", ["check", "--limit", "5", "--cert", "f.ml", "int list"], yes("0 0"), "value 1: TooLarge(words, 9, 5)", 4),
    ("", LIST, "", ["check", "f.ml", "--limit=9", "int list", "--cert"], ALL, "", 0),
    ("", LIST, "", ["check", "--limit", "9", "--cert", "--", "f.ml", "int list"], ALL, "", 0),
    ("", ONE, "", ["check", "--", "--cert", "int"], "", "cannot open --cert", 8),
    ("", LIST, "", ["check", "--cert", "--cert", "f.ml", "int list"], "", "usage", 2),
    ("", LIST, "", ["check", "--cert=true", "f.ml", "int list"], "", "usage", 2),
    ("", LIST, "", ["check", "--cert", "f.ml"], "", "usage", 2),
    ("", LIST, "", ["check", "f.ml", "int list", "--cert", "more"], "", "usage", 2),
    ("", LIST, "", ["show", "--cert", "f.ml", "int list"], "", "usage", 2),
    ("", LIST, "", ["--cert", "check", "f.ml", "int list"], "", "usage", 2),
    # files, and calls that fail
    ("", LIST, "", CERT + ["int lst"], "", "type: UnknownName at 4", 3),
    ("", LIST, "type t = item", CERT + ["int list"], "", "types: UnknownName at 9", 3),
    ("fetch=0", LIST, "", CERT + ["int list"], "", "cannot open f.ml", 8),
    ("take=0", LIST, "", CERT + ["int list"], "", "read fault", 6),
    ("take=1", LIST, "", CERT + ["int list"], ALL, "read fault", 6),
    ("out=14", CYCLIC, "", CERT + ["int list"], "value 0 yes\npa", "", 7),
    ("out=25", CYCLIC + LIST, "", CERT + ["int list"], yes("0 0"), "", 7),
    ("put=0", CYCLIC, "", CERT + ["int list"], "", "", 7),
]


def ask_with(settings, stream, file, words, out, err, status):
    """Prints a question, and its answer where that is wanted."""
    print("\t".join(["run " + " ".join(settings), stream.hex(), "=" + file] + words))
    if sys.argv[1] == "questions":
        return
    if out:
        print(out, end="" if out.endswith("\n") else " (cut)\n")
    if err:
        print("err: omarshal: " + err)
    print(f"status {status}")
    for setting in settings:
        if setting.startswith(("take", "fetch")):
            print(f"failed to {setting.split('=')[0]}: 1")


def main():
    for settings, stream, file, type_text, cert, out, err, status in CASES:
        given = [] if settings in ("", "words", "none") else [settings]
        if settings.startswith("take"):
            given.insert(0, f"piece={len(LIST)}")
        if settings != "none":
            given.append("script=" + cert.encode().hex())
        words = ["verify", "f.ml", type_text] + ([] if settings == "words" else ["script"])
        ask_with(given, stream, file, words, "".join(line + "\n" for line in out), err, status)
    for settings, stream, file, words, out, err, status in WRITTEN:
        given = [settings] if settings else []
        if settings.startswith("take"):
            given.insert(0, f"piece={len(LIST)}")
        ask_with(given, stream, file, words, out, err, status)


if len(sys.argv) == 2 and sys.argv[1] in ("questions", "answers"):
    main()
else:
    sys.exit(__doc__)

#!/usr/bin/env python3
"""Makes the questions of `run` with `--skip`, with their answers worked out by hand from the rules of README.md:

    skips.py questions      lines of `stdin`
    skips.py answers        lines of `stdout`
"""
import sys

MAGIC = b"Caml1999I025"
ONE = bytes.fromhex("8495a6be0000000100000000000000000000000041")
FIVE = bytes.fromhex("8495a6be0000000100000000000000000000000045")
# a pair of 1 and 2
PAIR = bytes.fromhex("8495a6be00000003000000010000000300000003a04142")
LEAF = bytes.fromhex("8495a6be0000000100000000000000000000000040")
SET = "type 'a set = Empty | Node of {l: 'a set; v: 'a; r: 'a set; h: int}"
CERTIFICATE = b"value 0 yes\nend\n"
GREATEST = 2**48
USAGE = ([], "usage", 2)

SKIP = ["--skip", "12"]
CHECK = ["check"] + SKIP + ["f.ml", "int"]
EDIT = ["edit"] + SKIP + ["f.ml", "int", "script"]
SET_FIVE = "script=" + b"0 set . = 5".hex()

# settings, input, FILE, words, lines on out or its bytes, the line on err, status
CASES = [
    ("", MAGIC + ONE, "", CHECK, ["yes"], "", 0),
    ("", MAGIC + ONE, "", ["check", "--skip=12", "f.ml", "int"], ["yes"], "", 0),
    ("", MAGIC + ONE, "", ["check", "f.ml", "int", "--skip", "12"], ["yes"], "", 0),
    ("", ONE, "", ["check", "--skip", "0", "f.ml", "int"], ["yes"], "", 0),
    ("", MAGIC + ONE, "", ["check", "f.ml", "int"], [], "value 0: BadMagic(43616d6c)", 4),
    ("", MAGIC + ONE, "", ["check", "--skip", "11", "f.ml", "int"], [], "value 0: BadMagic(358495a6)", 4),
    ("", MAGIC + ONE, "", ["check", "--skip", "13", "f.ml", "int"], [], "value 0: BadMagic(95a6be00)", 4),
    ("", MAGIC + ONE + PAIR, "", CHECK, ["yes", "no .: expected int, found block 0 of 2"], "", 1),
    ("", MAGIC + ONE + PAIR, "", ["check", "--skip", "33", "f.ml", "int * int"], ["yes"], "", 0),
    # values are counted from the first one behind these bytes, and offsets from a value's header
    ("", MAGIC + ONE + MAGIC, "", CHECK, ["yes"], "value 1: BadMagic(43616d6c)", 4),
    ("", MAGIC + ONE + ONE[:7], "", CHECK, ["yes"], "value 1: Truncated(7)", 4),
    ("", MAGIC + ONE[:20] + b"\x10", "", CHECK, [], "value 0: PointerCode(10) at 20", 4),
    # an input of so many bytes is no value behind them, and one of fewer has a line of its own
    ("", MAGIC, "", CHECK, [], "", 0),
    ("", MAGIC[:11], "", CHECK, [], "skip: Truncated(11)", 4),
    ("", b"", "", CHECK, [], "skip: Truncated(0)", 4),
    ("", b"", "", ["check", "--skip", "0", "f.ml", "int"], [], "", 0),
    ("", MAGIC + ONE, "", ["check", "--skip", str(GREATEST), "f.ml", "int"], [], "skip: Truncated(33)", 4),
    ("", MAGIC, "", ["same"] + SKIP, [], "not two values", 2),
    # the other commands
    ("", MAGIC + ONE, "", ["show"] + SKIP + ["f.ml", "int"], ["1"], "", 0),
    ("", MAGIC + PAIR, "", ["get"] + SKIP + ["f.ml", "int * int", ".1"], ["2"], "", 0),
    ("", MAGIC + LEAF, SET, ["trees"] + SKIP + ["f.ml", "int set"], ["sound 0"], "", 0),
    ("", MAGIC + ONE, None, ["dump"] + SKIP, ["root 1"], "", 0),
    ("", MAGIC + ONE + ONE, None, ["same"] + SKIP, ["same"], "", 0),
    ("", MAGIC + ONE + FIVE, None, ["same"] + SKIP, ["differ"], "", 1),
    ("", MAGIC + ONE, "", ["check", "--cert"] + SKIP + ["f.ml", "int"], ["value 0 yes", "end"], "", 0),
    ("", MAGIC[:5], "", ["check", "--cert"] + SKIP + ["f.ml", "int"], [], "skip: Truncated(5)", 4),
    ("script=" + CERTIFICATE.hex(), MAGIC + ONE, "", ["verify"] + SKIP + ["f.ml", "int", "script"], ["yes"], "", 0),
    ("script=" + CERTIFICATE.hex(), MAGIC, "", ["verify"] + SKIP + ["f.ml", "int", "script"], [], "sections left", 12),
    ("script=" + CERTIFICATE.hex(), MAGIC[:1], "", ["verify"] + SKIP + ["f.ml", "int", "script"], [], "skip: Truncated(1)", 4),
    # `edit` writes the bytes
    ("script=", MAGIC + ONE, "", EDIT, MAGIC + ONE, "", 0),
    (SET_FIVE, MAGIC + ONE, "", EDIT, MAGIC + FIVE, "", 0),
    (SET_FIVE, MAGIC + ONE + ONE, "", EDIT, MAGIC + FIVE + ONE, "", 0),
    (SET_FIVE, MAGIC, "", EDIT, MAGIC, "script line 1: NoValue", 5),
    ("script=", MAGIC, "", EDIT, MAGIC, "", 0),
    ("script=", MAGIC[:7], "", EDIT, MAGIC[:7], "skip: Truncated(7)", 4),
    ("script=", b"", "", EDIT, b"", "skip: Truncated(0)", 4),
    ("script=", MAGIC + PAIR, "", EDIT, MAGIC, "value 0: no .: expected int, found block 0 of 2", 1),
    ("script=", MAGIC + MAGIC, "", EDIT, MAGIC, "value 0: BadMagic(43616d6c)", 4),
    ("out=5 script=", MAGIC + ONE, "", EDIT, MAGIC[:5], "", 7),
    # words
    ("", MAGIC + ONE, "", ["check", "--limit", "0"] + SKIP + ["f.ml", "int"], ["yes"], "", 0),
    ("", MAGIC + PAIR, "", ["check"] + SKIP + ["--limit", "2", "f.ml", "_"], [], "value 0: TooLarge(words, 3, 2)", 4),
    ("", MAGIC, "", ["check", "--skip", str(GREATEST + 1), "f.ml", "int"], *USAGE),
    ("", MAGIC, "", ["check", "--skip", "f.ml", "int"], *USAGE),
    ("", MAGIC, "", ["check", "--skip", "-1", "f.ml", "int"], *USAGE),
    ("", MAGIC, "", ["check"] + SKIP + SKIP + ["f.ml", "int"], *USAGE),
    ("", b"", "", ["build"] + SKIP + ["f.ml", "int"], *USAGE),
    ("", b"", "", ["gen"] + SKIP + ["1", "1", "int"], *USAGE),
    ("", MAGIC + ONE, "", ["scan"] + SKIP, *USAGE),
    # calls that fail
    ("fetch=0", MAGIC + ONE, "", CHECK, [], "cannot open f.ml", 8),
    ("piece=5 take=1", MAGIC + ONE, "", CHECK, [], "read fault", 6),
    ("piece=5 take=1 script=", MAGIC + ONE, "", EDIT, MAGIC[:5], "read fault", 6),
]


def main():
    for settings, stream, text, words, out, err, status in CASES:
        file = "none" if text is None else "=" + text
        print("\t".join(["run " + settings, stream.hex(), file] + words))
        if sys.argv[1] == "questions":
            continue
        if isinstance(out, bytes):
            if out:
                print("values: " + out.hex())
        else:
            for line in out:
                print(line)
        if err:
            print("err: omarshal: " + err)
        print(f"status {status}")
        if "fetch" in settings:
            print("failed to fetch: 1")
        if "take" in settings:
            print("failed to take: 1")


if len(sys.argv) == 2 and sys.argv[1] in ("questions", "answers"):
    main()
else:
    sys.exit(__doc__)

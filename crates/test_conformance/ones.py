#!/usr/bin/env python3
"""Makes the questions of `run` with `--only`, with their answers worked out by hand from the rules of README.md:

    ones.py questions      lines of `stdin`
    ones.py answers        lines of `stdout`
"""
import sys

MAGIC = b"Caml1999I025"
ONE = bytes.fromhex("8495a6be0000000100000000000000000000000041")
FIVE = bytes.fromhex("8495a6be0000000100000000000000000000000045")
# a pair of 1 and 2
PAIR = bytes.fromhex("8495a6be00000003000000010000000300000003a04142")
GREATEST = 2**63 - 1
USAGE = ([], "usage", 2)
NO = "no .: expected int, found block 0 of 2"


def only(command, number, *rest):
    return [command, "--only", str(number)] + list(rest or ("f.ml", "int"))


# settings, input, FILE, words, lines on out, the line on err, status
CASES = [
    ("", ONE + FIVE, "", only("show", 0), ["1"], "", 0),
    ("", ONE + FIVE, "", only("show", 1), ["5"], "", 0),
    ("", ONE + FIVE, "", ["show", "--only=1", "f.ml", "int"], ["5"], "", 0),
    ("", ONE + FIVE, "", ["show", "f.ml", "int", "--only", "1"], ["5"], "", 0),
    ("", ONE + FIVE + PAIR, "", only("show", 1), ["5"], "", 0),
    ("", PAIR + PAIR, "", only("get", 1, "f.ml", "int * int", ".1"), ["2"], "", 0),
    ("", ONE + FIVE, None, only("dump", 1, "--limit", "0"), ["root 5"], "", 0),
    # what is said of the values before it is not said, and is no part of the status
    ("", ONE + PAIR, "", only("check", 0), ["yes"], "", 0),
    ("", ONE + PAIR, "", only("check", 1), [NO], "", 1),
    ("", PAIR + ONE, "", only("check", 0), [NO], "", 1),
    ("", PAIR + ONE, "", only("check", 1), ["yes"], "", 0),
    ("", ONE + PAIR, "", only("get", 1, "f.ml", "int * int", ".0"), ["1"], "", 0),
    # where it is missing, that is a value of which no byte came
    ("", b"", "", only("show", 0), [], "value 0: Truncated(0)", 4),
    ("", ONE + FIVE, "", only("show", 2), [], "value 2: Truncated(0)", 4),
    ("", ONE + FIVE, "", only("show", GREATEST), [], "value 2: Truncated(0)", 4),
    ("", PAIR, "", only("check", 1), [], "value 1: Truncated(0)", 4),
    ("", b"", None, ["dump", "--only", "0"], [], "value 0: Truncated(0)", 4),
    # what is refused or cut stops the run up to it, and not behind it
    ("", MAGIC + ONE, "", only("check", 1), [], "value 0: BadMagic(43616d6c)", 4),
    ("", ONE + MAGIC, "", only("check", 1), [], "value 1: BadMagic(43616d6c)", 4),
    ("", ONE + MAGIC, "", only("check", 0), ["yes"], "", 0),
    ("", ONE + FIVE + MAGIC, "", only("show", 1), ["5"], "", 0),
    ("", ONE[:7], "", only("check", 3), [], "value 0: Truncated(7)", 4),
    ("", ONE + ONE[:7], "", only("check", 1), [], "value 1: Truncated(7)", 4),
    ("", ONE + ONE[:7], "", only("check", 0), ["yes"], "", 0),
    ("", ONE + ONE[:7], "", only("check", 2), [], "value 1: Truncated(7)", 4),
    ("", ONE + PAIR, "", only("check", 0, "--limit", "2", "f.ml", "int"), ["yes"], "", 0),
    ("", ONE + PAIR, "", only("check", 1, "--limit", "2", "f.ml", "int"), [], "value 1: TooLarge(words, 3, 2)", 4),
    # values count from the first one after the bytes that are passed over
    ("", MAGIC + ONE + FIVE, "", only("show", 1, "--skip", "12", "f.ml", "int"), ["5"], "", 0),
    ("", MAGIC + ONE + MAGIC, "", only("show", 0, "--skip", "12", "f.ml", "int"), ["1"], "", 0),
    ("", MAGIC, "", only("show", 0, "--skip", "12", "f.ml", "int"), [], "value 0: Truncated(0)", 4),
    ("", MAGIC[:5], "", only("show", 0, "--skip", "12", "f.ml", "int"), [], "skip: Truncated(5)", 4),
    # words
    ("", ONE, "", only("check", GREATEST + 1), *USAGE),
    ("", ONE, "", only("check", -1), *USAGE),
    ("", ONE, "", ["check", "--only", "f.ml", "int"], *USAGE),
    ("", ONE, "", ["check", "--only", "0", "--only", "0", "f.ml", "int"], *USAGE),
    ("", ONE, "", ["check", "--cert", "--only", "0", "f.ml", "int"], *USAGE),
    ("script=", ONE, "", only("edit", 0, "f.ml", "int", "script"), *USAGE),
    ("", ONE + ONE, None, ["same", "--only", "0"], *USAGE),
    ("", ONE, "", only("trees", 0, "f.ml", "int set"), *USAGE),
    ("", ONE, "", only("verify", 0, "f.ml", "int", "script"), *USAGE),
    ("", b"", "", only("build", 0), *USAGE),
    ("", ONE, None, ["scan", "--only", "0"], *USAGE),
    # calls that fail: behind the value nothing is taken
    ("fetch=0", ONE, "", only("check", 0), [], "cannot open f.ml", 8),
    ("piece=21 take=1", ONE + ONE, "", only("check", 0), ["yes"], "", 0),
    ("piece=21 take=1", ONE + ONE, "", only("check", 1), [], "read fault", 6),
    ("piece=21 take=1", ONE, "", only("check", 0), ["yes"], "", 0),
    ("piece=21 take=1", PAIR, "", only("check", 0), [], "read fault", 6),
    ("piece=23 take=1", PAIR + ONE, "", only("check", 0), [NO], "", 1),
    ("piece=21 take=2", ONE + FIVE, "", only("show", 1), ["5"], "", 0),
    ("piece=21 take=2", ONE + FIVE + MAGIC, "", only("show", 1), ["5"], "", 0),
    ("piece=21 take=2", ONE + FIVE, "", only("show", 2), [], "read fault", 6),
    ("piece=7 take=3", ONE + ONE, "", only("check", 0), ["yes"], "", 0),
    ("piece=7 take=2", ONE + ONE, "", only("check", 0), [], "read fault", 6),
    ("piece=33 take=1", MAGIC + ONE + FIVE, "", only("show", 0, "--skip", "12", "f.ml", "int"), ["1"], "", 0),
    ("piece=11 take=3", MAGIC + ONE + FIVE, "", only("show", 0, "--skip", "12", "f.ml", "int"), ["1"], "", 0),
    ("piece=11 take=2", MAGIC + ONE + FIVE, "", only("show", 0, "--skip", "12", "f.ml", "int"), [], "read fault", 6),
    ("piece=23 take=1", PAIR + PAIR, "", only("get", 0, "f.ml", "int * int", ".1"), ["2"], "", 0),
    ("piece=23 take=1", PAIR + PAIR, "", only("get", 0, "f.ml", "int * int", ".2"), ["none"], "", 1),
    ("piece=21 take=1", ONE + MAGIC, None, only("dump", 0, "--limit", "0"), ["root 1"], "", 0),
    ("put_out=0", ONE + ONE, "", only("check", 0), [], "", 7),
]


def main():
    for settings, stream, text, words, out, err, status in CASES:
        file = "none" if text is None else "=" + text
        print("\t".join(["run " + settings, stream.hex(), file] + words))
        if sys.argv[1] == "questions":
            continue
        for line in out:
            print(line)
        if err:
            print("err: omarshal: " + err)
        print(f"status {status}")
        if "fetch" in settings:
            print("failed to fetch: 1")
        if err == "read fault":
            print("failed to take: 1")


if len(sys.argv) == 2 and sys.argv[1] in ("questions", "answers"):
    main()
else:
    sys.exit(__doc__)

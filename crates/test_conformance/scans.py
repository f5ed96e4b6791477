#!/usr/bin/env python3
"""Makes the questions of `run` on `scan`, with their answers worked out by hand from the rules of docs/FORMAT.md:

    scans.py questions      lines of `stdin`
    scans.py answers        lines of `stdout`
"""
import sys


def value(objects, words32, words64, body, length=None):
    data = bytes.fromhex(body)
    numbers = (len(data) if length is None else length, objects, words32, words64)
    return b"\x84\x95\xa6\xbe" + b"".join(n.to_bytes(4, "big") for n in numbers) + data


LIST = value(3, 9, 9, "a041a042a04340")  # [1; 2; 3], 27 bytes
CYCLIC = value(1, 3, 3, "a0410401")  # a list that is its own tail, 24 bytes
ONE = value(0, 0, 0, "41")  # 1, 21 bytes
UNSHARED = value(0, 9, 9, "a041a042a04340")  # [1; 2; 3], written with No_sharing
BIG = bytes.fromhex("8495a6bf00000000") + (1).to_bytes(8, "big") + bytes(16) + b"\x41"  # 1, with a big header
WRONG = value(3, 10, 9, "a041a042a04340")  # one word too many is stated, which shows at the last byte
COUNTED = value(4, 9, 9, "a041a042a04340")  # so does one object too many

# a value of each kind
KINDS = (
    value(0, 0, 0, "80")
    + value(1, 2, 2, "23616263")
    + value(1, 3, 2, "0c000000000000f03f")
    + value(1, 3, 3, "195f690000000001")
    + value(1, 5, 3, "0e02000000000000f03f0000000000000040")
    + value(1, 4, 3, "195f6a000000000000000001")
    + value(1, 3, 3, "195f6e000100000003")
    + value(0, 0, 0, "00ff")
)
OF_KINDS = [
    "0 21 0 0 atom 0",
    "21 24 2 1 string",
    "45 29 2 1 float",
    "74 28 3 1 int32",
    "102 38 3 1 float array of 2",
    "140 32 3 1 int64",
    "172 29 3 1 nativeint",
    "201 22 0 0 int -1",
]

# a string of 21 bytes, which encode 1; and one of 80 bytes, of which 27 are there, and encode the list
HOLDS = value(1, 7, 4, "0915" + ONE.hex())
CLAIMS = value(1, 30, 20, "0950" + LIST.hex(), length=100)

FIRST = "0 27 9 3 block 0 of 2"

# settings, input, words, lines on out, the line on err, status
CASES = [
    ("", b"", ["scan"], [], "", 0),
    ("", b"hello", ["scan"], [], "", 0),
    ("", LIST[:4], ["scan"], [], "", 0),
    ("", LIST, ["scan"], [FIRST], "", 0),
    ("", LIST + CYCLIC, ["scan"], [FIRST, "27 24 3 1 block 0 of 2"], "", 0),
    ("", b"head\n" + LIST + b"gap\n" + CYCLIC + b"end\n", ["scan"], ["5 27 9 3 block 0 of 2", "36 24 3 1 block 0 of 2"], "", 0),
    ("", KINDS, ["scan"], OF_KINDS, "", 0),
    ("", UNSHARED + BIG, ["scan"], [FIRST, "27 33 0 0 int 1"], "", 0),
    # a magic in which a magic begins, and one of compressed data
    ("", LIST[:3] + LIST, ["scan"], ["3 27 9 3 block 0 of 2"], "", 0),
    ("", bytes.fromhex("8495a6bd") + LIST, ["scan"], ["4 27 9 3 block 0 of 2"], "", 0),
    # a value that is cut, before another and at the end
    ("", LIST[:22] + CYCLIC, ["scan"], ["22 24 3 1 block 0 of 2"], "", 0),
    ("", LIST + LIST[:22], ["scan"], [FIRST], "", 0),
    ("", LIST[:26], ["scan"], [], "", 0),
    # a header that claims more than there is, and a value inside what it claims
    ("", CLAIMS, ["scan"], ["22 27 9 3 block 0 of 2"], "", 0),
    ("", CLAIMS + LIST, ["scan"], ["22 27 9 3 block 0 of 2", "49 27 9 3 block 0 of 2"], "", 0),
    # values with a fault, before good ones
    ("", WRONG + LIST, ["scan"], ["27 27 9 3 block 0 of 2"], "", 0),
    ("", COUNTED + WRONG + LIST + WRONG, ["scan"], ["54 27 9 3 block 0 of 2"], "", 0),
    # the limit; a value inside one that was found, and inside one that is over the limit
    ("", LIST, ["scan", "--limit", "9"], [FIRST], "", 0),
    ("", LIST, ["scan", "--limit", "8"], [], "", 0),
    ("", LIST + CYCLIC, ["scan", "--limit=3"], ["27 24 3 1 block 0 of 2"], "", 0),
    ("", ONE, ["scan", "--limit", "0"], ["0 21 0 0 int 1"], "", 0),
    ("", HOLDS, ["scan"], ["0 43 4 1 string"], "", 0),
    ("", HOLDS, ["scan", "--limit", "3"], ["22 21 0 0 int 1"], "", 0),
    # words
    ("", LIST, ["scan", "f.ml"], [], "usage", 2),
    ("", LIST, ["scan", "--limit"], [], "usage", 2),
    ("", LIST, ["scan", "--limit", "x"], [], "usage", 2),
    ("", LIST, ["scan", "--limit", "9", "--limit", "9"], [], "usage", 2),
    ("", LIST, ["scan", "--cert"], [], "usage", 2),
    ("err=0", LIST, ["scan", "f.ml"], [], "", 7),
    # calls that fail; no file is fetched
    ("fetch=0", LIST, ["scan"], [FIRST], "", 0),
    ("piece=27 take=0", LIST, ["scan"], [], "read fault", 6),
    ("piece=27 take=1", LIST + CYCLIC, ["scan"], [FIRST], "read fault", 6),
    ("piece=26 take=1", LIST, ["scan"], [], "read fault", 6),
    ("put_out=0", LIST, ["scan"], [], "", 7),
    ("out=4", LIST, ["scan"], ["0 27"], "", 7),
]


def main():
    for settings, stream, words, out, err, status in CASES:
        print("\t".join(["run " + settings, stream.hex(), "none"] + words))
        if sys.argv[1] == "questions":
            continue
        for line in out:
            print(line + " (cut)" if settings.startswith("out=") else line)
        if err:
            print("err: omarshal: " + err)
        print(f"status {status}")
        if "take" in settings:
            print("failed to take: 1")


if len(sys.argv) == 2 and sys.argv[1] in ("questions", "answers"):
    main()
else:
    sys.exit(__doc__)

#!/usr/bin/env python3
"""Makes questions on `build` of long lines, whose values are guessed, with their answers: the texts are by the rules of docs/TEXTS.md, the
bytes are computed from the values by the rules of docs/FORMAT.md, and the refusal is by hand, with its position behind a mark:

    guesses.py questions      lines of `stdin`
    guesses.py answers        lines of `stdout`
"""
import struct
import sys

FILE = (
    "type shade = Dark | Mixed of int * shade | Named of {name: string; over: shade}"
    "  type item = {count: int; good: bool; note: string; size: float; shade: shade; none: unit}"
)


class Part:
    """A value: its text, its bytes, its objects, and its words on 32 and 64 bits."""

    def __init__(self, text, data, objects=0, words=(0, 0)):
        self.text, self.data, self.objects, self.words = text, data, objects, words


def constant(text, number):
    return Part(text, bytes([0x40 + number]))


def integer(n):
    for width, code in ((1, b""), (1, b"\0"), (2, b"\1"), (4, b"\2"), (8, b"\3")):
        if not code and 0 <= n < 64:
            return Part(str(n), bytes([0x40 + n]))
        if code and -(1 << 8 * width - 1) <= n < 1 << 8 * width - 1:
            return Part(str(n), code + n.to_bytes(width, "big", signed=True))


def text(written, data):
    code = bytes([0x20 + len(data)]) if len(data) < 32 else bytes([9, len(data)])
    return Part(f'"{written}"', code + data, 1, (1 + (len(data) + 4) // 4, 1 + (len(data) + 8) // 8))


def double(x):
    return Part("$" + struct.pack(">d", x).hex(), b"\x0c" + struct.pack("<d", x), 1, (3, 2))


def block(tag, before, parts, between, behind, names=None):
    texts = [it.text if names is None else f"{name} = {it.text}" for it, name in zip(parts, names or parts)]
    words = [1 + len(parts) + sum(it.words[i] for it in parts) for i in (0, 1)]
    data = bytes([0x80 + tag + 16 * len(parts)]) + b"".join(it.data for it in parts)
    return Part(before + between.join(texts) + behind, data, 1 + sum(it.objects for it in parts), words)


DARK = constant("Dark", 0)


def mixed(n, shade):
    return block(0, "Mixed(", [integer(n), shade], ", ", ")")


def named(name, shade):
    return block(1, "Named{", [name, shade], "; ", "}", ["name", "over"])


def item(count, good, note, size, shade):
    parts = [integer(count), constant(str(good).lower(), good), note, double(size), shade, constant("()", 0)]
    return block(0, "{", parts, "; ", "}", ["count", "good", "note", "size", "shade", "none"])


def listed(items):
    if not items:
        return constant("[]", 0)
    return block(0, "::(", [items[0], listed(items[1:])], ", ", ")")


ITEMS = listed([
    item(1, True, text("plain", b"plain"), 1.0, DARK),
    item(-70, False, text(r'a\"\\\n\255\000z', b'a"\\\n\xff\0z'), -0.5, mixed(300, DARK)),
    item(-40000, True, text("", b""), 1e300, named(text("sea", b"sea"), mixed(5, named(text("sky", b"sky"), DARK)))),
    item((1 << 62) - 1, False, text("long " * 8, b"long " * 8), 0.0, mixed(-(1 << 62), mixed(63, DARK))),
    item(0, True, text("(){};, ", b"(){};, "), float("inf"), named(text("", b""), DARK)),
])
NUMBERS = listed([integer(n) for n in range(-20, 40)])
PAIR = block(0, "(", [text("w" * 130, b"w" * 130), block(0, "(", [integer(7), text("x" * 130, b"x" * 130)], ", ", ")")], ", ", ")")


def encoded(value):
    header = (len(value.data), value.objects, *value.words)
    return b"\x84\x95\xa6\xbe" + b"".join(n.to_bytes(4, "big") for n in header) + value.data


def right(type_text, value, line=None):
    """A line that `show` prints, or another one of the same value."""
    line = line or value.text
    return type_text, line, [f"values: {encoded(value).hex()}", "status 0"]


def changed(value, old, new):
    assert value.text.count(old) == 1
    return value.text.replace(old, new)


def refused(type_text, marked, why, behind=""):
    position = marked.index("@")
    return type_text, marked.replace("@", ""), [f"err: omarshal: text line 1: {why} at {position}{behind}", "status 5"]


CASES = [
    right("item list", ITEMS),
    right("int list", NUMBERS),
    right("string * (int * string)", PAIR),
    # not as `show` prints it
    right("item list", ITEMS, changed(ITEMS, "count = 1;", "count = 01;")),
    right("item list", ITEMS, changed(ITEMS, "Mixed(300, Dark)", "Mixed (300, Dark)")),
    right("item list", ITEMS, changed(ITEMS, "size = $7ff0000000000000", "size = $7FF0000000000000")),
    right("int list", NUMBERS, NUMBERS.text + " "),
    # no value
    refused("item list", changed(ITEMS, "count = 1; good = true", "count = 1; good = @trwe"), "Syntax"),
    refused("item list", changed(ITEMS, "Mixed(300, Dark)", "@Dark(300, Dark)"), "Misfit", ": expected shade"),
    refused("int list", changed(NUMBERS, "::(39, [])", "::(39, @false)"), "Misfit", ": expected int list"),
]


def main():
    for type_text, line, answer in CASES:
        assert len(line) >= 64 * (8 if "item" in type_text else 4)
        print("\t".join(["run ", (line + "\n").encode().hex(), "=" + FILE, "build", "f.ml", type_text]))
        if sys.argv[1] == "answers":
            print("\n".join(answer))


if len(sys.argv) == 2 and sys.argv[1] in ("questions", "answers"):
    main()
else:
    sys.exit(__doc__)

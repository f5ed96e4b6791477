#!/usr/bin/env python3
"""Makes the questions of `run` with `--decimal`, with their answers worked out apart from the program: the decimals by exact
fractions, the doubles of texts by Python, lines and positions by hand from the rules of docs/TEXTS.md and docs/EDITS.md.

    decimals.py questions      lines of `stdin`
    decimals.py answers        lines of `stdout`
"""
import struct
import sys
from decimal import Decimal
from fractions import Fraction

MARK = "¦"
MAGIC = b"Caml1999I025"
INFINITE = 2047 << 52
USAGE = ([], "usage", 2)

# ---- doubles and decimals


def bits_of(number):
    return struct.unpack(">Q", struct.pack(">d", number))[0]


def exact(size):
    """The number of a double above 0 by its bits; behind the greatest one the next power of 2."""
    field, low = size >> 52, size & (2**52 - 1)
    return Fraction(low, 2**1074) if field == 0 else Fraction(2**52 + low) * Fraction(2) ** (field - 1075)


def halves(size):
    """What lies halfway to the double below and to the one above; an even one has both."""
    number = exact(size)
    return (exact(size - 1) + number) / 2, (number + exact(size + 1)) / 2, size % 2 == 0


def reads(digits, power, size):
    below, above, ends = halves(size)
    number = digits * Fraction(10) ** power
    return below <= number <= above if ends else below < number < above


def shortest(size):
    """Of the decimals that read as the double one with the greatest power, and of these the nearest, then the even one."""
    number, power = exact(size), 310
    while True:
        unit = Fraction(10) ** power
        near = int(number / unit)
        found = [d for d in (near - 1, near, near + 1, near + 2) if d > 0 and reads(d, power, size)]
        if found:
            break
        power -= 1
    digits = min(found, key=lambda d: (abs(d * unit - number), d % 2))
    known = Decimal(repr(struct.unpack(">d", struct.pack(">Q", size))[0])).normalize()
    assert known == Decimal(digits).scaleb(power), (size, digits, power, known)
    return str(digits), power


def decimal(bits):
    """The text of a double."""
    size, sign = bits & (2**63 - 1), "-" if bits >> 63 else ""
    if size >= INFINITE:
        return f"${bits:016x}"
    if size == 0:
        return sign + "0."
    digits, power = shortest(size)
    point = len(digits) + power
    if point < -4 or point > 16:
        behind = "." + digits[1:] if digits[1:] else ""
        return f"{sign}{digits[0]}{behind}e{point - 1}"
    if point <= 0:
        return sign + "0." + "0" * -point + digits
    return sign + digits[:point] + "0" * (point - len(digits)) + "." + digits[point:]


def plain(bits):
    return f"${bits:016x}"


# ---- values


class Double:
    def __init__(self, number):
        self.bits = number if isinstance(number, int) else bits_of(number)


class Doubles:
    def __init__(self, numbers):
        self.all = [Double(number).bits for number in numbers]


def little(bits):
    return bits.to_bytes(8, "little")


class Stream:
    """The tokens of a value, and the numbers of its header."""

    def __init__(self):
        self.data, self.objects, self.words32, self.words64 = b"", 0, 0, 0

    def made(self, words32, words64):
        self.objects += 1
        self.words32 += 1 + words32
        self.words64 += 1 + words64

    def add(self, part):
        if isinstance(part, int):
            self.data += bytes([0x40 + part]) if 0 <= part < 64 else bytes([0, part % 256])
        elif isinstance(part, str):
            size = 0x20 + len(part)
            self.data += (bytes([size]) if len(part) < 32 else bytes([9, len(part)])) + part.encode()
            self.made(1 + len(part) // 4, 1 + len(part) // 8)
        elif isinstance(part, bytes):
            self.data += part
        elif isinstance(part, Double):
            self.data += b"\x0c" + little(part.bits)
            self.made(2, 1)
        elif isinstance(part, Doubles):
            if not part.all:
                self.data += b"\x80"
                return
            self.data += b"\x0e" + bytes([len(part.all)]) + b"".join(little(bits) for bits in part.all)
            self.made(2 * len(part.all), len(part.all))
        else:
            tag, fields = part
            self.data += bytes([0x80 + 16 * len(fields) + tag])
            self.made(len(fields), len(fields))
            for field in fields:
                self.add(field)

    def whole(self):
        numbers = (len(self.data), self.objects, self.words32, self.words64)
        return b"\x84\x95\xa6\xbe" + b"".join(n.to_bytes(4, "big") for n in numbers) + self.data


def value(part):
    stream = Stream()
    stream.add(part)
    return stream.whole()


def listed(items):
    part = 0
    for item in reversed(items):
        part = (0, [item, part])
    return part


def of(text):
    """The value of a decimal, by Python."""
    return value(Double(float(text)))


# ---- questions

questions, answers = [], []


def ask(settings, given, file, words, out, err, status):
    question = "\t".join(["run " + settings, given.hex(), file] + words)
    questions.append(question)
    answers.append(question)
    if isinstance(out, bytes):
        out = ["values: " + out.hex()] if out else []
    answers.extend(out)
    if err:
        answers.append("err: omarshal: " + err)
    answers.append(f"status {status}")
    if "fetch" in settings:
        answers.append("failed to fetch: 1")


def split(marked):
    """The bytes of a text, and how many of them come before the mark."""
    before, after = marked.split(MARK)
    return (before + after).encode(), len(before.encode())


SHOW = ["show", "--decimal", "f.ml"]
GET = ["get", "--decimal", "f.ml"]
BUILD = ["build", "--decimal", "f.ml"]
EDIT = ["edit", "--decimal", "f.ml"]

# ---- doubles alone

NUMBERS = [
    0.0, -0.0, 1.0, -1.0, 0.5, 1.5, 0.1, 0.2, 0.3, 0.1 + 0.2, 1 / 3, 2 / 3, 100.0, 123456.789, -3.141592653589793,
    # the greatest with a point alone, and what has an exponent
    1e15, 1234567890123456.0, 9007199254740992.0, 9007199254740994.0, 9999999999999998.0, 1e16, 12345678901234568.0, 1e17, 1e21, 1e22, 1e23,
    # zeros behind the point
    0.001, 0.00012, 0.00001, 0.000012345, 0.000001, 0.0000012345, -1e-7,
    # the limits
    1e300, 1.7976931348623157e308, -1.7976931348623157e308, 2.2250738585072014e-308, 2.225073858507201e-308, 5e-324, -5e-324, 1e-323, 1.5e-323,
    # a power of 2 that is as near to two decimals, and others
    2.0**-44, 2.0**53, 2.0**63, 2.0**64, 2.0**-20, 2.0**100, 9.5e-7, 5e22, 4.35, 1e6, 1e7,
]
BITS = [bits_of(number) for number in NUMBERS] + [
    0x41DAC2AA5F935021,
    0x7FF0000000000000,
    0xFFF0000000000000,
    0x7FF8000000000000,
    0x7FF8000000000001,
    0x7FF0000000000001,
    0xFFF8000000000000,
    0xFFFFFFFFFFFFFFFF,
    0x000FFFFFFFFFFFFF,
    0x0010000000000001,
    0x7FEFFFFFFFFFFFFE,
]


def more(count):
    """Bits without a pattern."""
    state, found = 20261130, []
    for _ in range(count):
        state = (state * 6364136223846793005 + 1442695040888963407) % 2**64
        found.append(state ^ state >> 29)
    return found


for bits in (BITS, more(120)):
    stream = b"".join(value(Double(b)) for b in bits)
    texts = [decimal(b) for b in bits]
    ask("", stream, "=", SHOW + ["float"], texts, "", 0)
    ask("", "\n".join(texts).encode(), "=", BUILD + ["float"], stream, "", 0)

# without the flag they are bits, which are read with it too
ask("", value(Double(1.5)), "=", ["show", "f.ml", "float"], ["$3ff8000000000000"], "", 0)
ask("", b"$3ff8000000000000\n1.5", "=", BUILD + ["float"], 2 * of("1.5"), "", 0)
ask("", b"1.5", "=", ["build", "f.ml", "float"], [], "text line 1: Syntax at 1", 5)
ask("", b"", "=", SHOW + ["float"], [], "", 0)

# ---- doubles in other values

POINT = "type r = {x : float; y : float}"
MIXED = "type r = {name : string; at : float}"
INLINE = "type t = A of {x : float; n : int} | B of float * float | C"
SHARED = (0, [Double(1.5), b"\x04\x01"])

# FILE, type, value, text
PARTS = [
    ("", "float * float", (0, [Double(1.0), Double(-2.5)]), "(1., -2.5)"),
    ("", "float list", listed([Double(1.5), Double(100.0)]), "::(1.5, ::(100., []))"),
    ("", "float option", (0, [Double(-0.0)]), "Some(-0.)"),
    ("", "float ref", (0, [Double(0x7FF8000000000001)]), "ref($7ff8000000000001)"),
    ("", "float array", Doubles([1.5, -2.0, float("inf")]), "[|1.5; -2.; $7ff0000000000000|]"),
    ("", "float array", Doubles([1e300]), "[|1e300|]"),
    ("", "float array", Doubles([]), "[||]"),
    ("", "floatarray", Doubles([-1.0, 0.25]), "[|-1.; 0.25|]"),
    (POINT, "r", Doubles([0.1, -1e-5]), "{x = 0.1; y = -0.00001}"),
    (MIXED, "r", (0, ["a", Double(1e16)]), '{name = "a"; at = 1e16}'),
    (INLINE, "t", (0, [Double(3.5), 7]), "A{x = 3.5; n = 7}"),
    (INLINE, "t", (1, [Double(3.5), Double(5e-324)]), "B(3.5, 5e-324)"),
    ("", "[ `T of float ]", (0, [84, Double(2.0)]), "`T(2.)"),
    ("", "float * float", SHARED, "(#0=1.5, #0)"),
    # what only looks like a double stays
    ("", "string * float", (0, ["$3ff8000000000000", Double(1.5)]), '("$3ff8000000000000", 1.5)'),
    ("", "string * float", (0, ["($3ff8000000000000, 1.", Double(-1.5)]), '("($3ff8000000000000, 1.", -1.5)'),
    ("", "char * float", (0, [36, Double(1.5)]), "('$', 1.5)"),
    ("", "int * float", (0, [5, Double(5.0)]), "(5, 5.)"),
]

for file, typed, part, text in PARTS:
    ask("", value(part), "=" + file, SHOW + [typed], [text], "", 0)
    ask("", text.encode(), "=" + file, BUILD + [typed], value(part), "", 0)

ask("", value((0, [Double(1.5), Double(2.5)])), "=", SHOW + ["float * _"], ["(1.5, _)"], "", 0)
PAIR = value((0, [Double(1.5), 7]))
ask("", PAIR + value(5) + PAIR, "=", SHOW + ["float * int"],
    ["(1.5, 7)", "no .: expected float * int, found int 5", "(1.5, 7)"], "", 1)
ask("", value((0, [5, 7])), "=", SHOW + ["float * int"], ["no .0: expected float, found int 5"], "", 1)
ask("", PAIR + b"hello", "=", SHOW + ["float * int"], ["(1.5, 7)"], "value 1: BadMagic(68656c6c)", 4)

# ---- at a path

ask("", PAIR, "=", GET + ["float * int", "."], ["(1.5, 7)"], "", 0)
ask("", PAIR, "=", GET + ["float * int", ".0"], ["1.5"], "", 0)
ask("", PAIR, "=", GET + ["float * int", ".1"], ["7"], "", 0)
ask("", PAIR, "=", GET + ["float * int", ".2"], ["none"], "", 1)
ask("", PAIR, "=", GET + ["float * int", "1.0"], [], "bad path", 2)
ask("", value((0, [(0, [Double(1.5), 7]), 0])), "=", GET + ["(float * int) * int", ".0.0"], ["1.5"], "", 0)
ask("", value(Doubles([0.5, 2.0])), "=" + POINT, GET + ["r", "."], ["{x = 0.5; y = 2.}"], "", 0)
ask("", value(Doubles([0.5, 2.0])), "=" + POINT, GET + ["r", ".0"], ["none"], "", 1)
ask("", value((0, [5, 7])), "=", GET + ["float * int", "."], ["no .0: expected float, found int 5"], "", 1)

# ---- texts that are read

FORMS = [
    "01.50e+3", "1e5", "1E5", "1.e5", "1.e-5", "1.5E-3", "-1.5", "-0.0", "-0.", "0.0", "0e5", "00.", "1.0", "1e+300", "100000.", "1e0",
    # too great, and too small
    "1e999", "-1e999", "1.7976931348623159e308", "1.7976931348623158e308", "1e-999", "-1e-999", "2.4e-324", "2.5e-324",
    # the nearest one, and of two the even one
    "9007199254740993.", "9007199254740993.00000000000000000000000000000001", "9007199254740995.", "0.1000000000000000055511151231257827",
    "0.1000000000000000000000000000000000000000000000000000000000000000000000000001", "1" + 30 * "0" + ".", "0." + 330 * "0" + "1e331",
]
ask("", "\n".join(FORMS).encode(), "=", BUILD + ["float"], b"".join(of(text) for text in FORMS), "", 0)
ask("", b" (* 2.5 *) 1.5 (**)\n\n-1.5\n  \n", "=", BUILD + ["float"], of("1.5") + of("-1.5"), "", 0)
ask("", b"( 1.5,2.5 )\n(1.5 ,(* , *)2.5)\n(1.5,2.5)", "=", BUILD + ["float * float"],
    3 * value((0, [Double(1.5), Double(2.5)])), "", 0)
ask("", b"(#0=1.5,#0)\n(#0 = 1.5, #0)", "=", BUILD + ["float * float"], 2 * value(SHARED), "", 0)
ask("", b"[|1.;2.|]\n[|$3ff0000000000000;2e0|]\n[||]", "=", BUILD + ["float array"],
    2 * value(Doubles([1.0, 2.0])) + value(Doubles([])), "", 0)
ask("", b"{x=1.;y=-2.}", "=" + POINT, BUILD + ["r"], value(Doubles([1.0, -2.0])), "", 0)

# texts that are refused, with a mark at the position that is reported
REFUSED = [
    ("float", "¦5", "Misfit", ": expected float"),
    ("float", "¦.5", "Syntax", ""),
    ("float", "1¦_000.5", "Syntax", ""),
    ("float", "0¦x1.8", "Syntax", ""),
    ("float", "1.5¦.2", "Syntax", ""),
    ("float", "1.5 ¦2", "Syntax", ""),
    ("float", "1.5 ¦2.5", "Syntax", ""),
    ("float", "1.5¦e", "Syntax", ""),
    ("float", "1.5e¦+", "BadByte", ""),
    ("float", "1.5¦l", "Syntax", ""),
    ("float", "¦+1.5", "BadByte", ""),
    ("float", "¦- 1.5", "BadByte", ""),
    ("float", "¦-.5", "BadByte", ""),
    ("float", "¦infinity", "Syntax", ""),
    ("float", "¦nan", "Syntax", ""),
    ("float", "¦\"1.5\"", "Misfit", ": expected float"),
    ("float", "1.5 ¦(* 2.5", "OpenComment", ""),
    ("int", "¦1.5", "Misfit", ": expected int"),
    ("int", "¦1e5", "Misfit", ": expected int"),
    ("string", "¦1.5", "Misfit", ": expected string"),
    ("float * float", "¦1.5", "Misfit", ": expected float * float"),
    ("float * float", "¦(1.25, 2.5, 3.)", "Misfit", ": expected float * float"),
    ("float * float", "(1.25, ¦2)", "Misfit", ": expected float"),
    ("float * float", "  (-1.25e-7  , ¦2)", "Misfit", ": expected float"),
    ("float * float", "(100000000000000000000000000000., ¦2)", "Misfit", ": expected float"),
    ("float * float", "($3ff8000000000000, ¦2)", "Misfit", ": expected float"),
    ("float * float", "(1.5,¦", "Syntax", ""),
    ("float * float", "(1.5¦", "Syntax", ""),
    ("float * float", "(1.5, 2.5¦", "Syntax", ""),
    ("float * float", "(1.5, 2.5) ¦)", "Syntax", ""),
    ("float * float", "(1.5, 2.5)¦, 1.", "Syntax", ""),
    ("float * float", "(1.5 ¦2.5)", "Syntax", ""),
    ("float * float", "(1.5, 2.5, ¦? 3.5", "BadByte", ""),
    ("float * float", "(1.5, ¦\"2.5", "OpenString", ""),
    ("float * float", "(1.5, ¦#1=2.5)", "Label", ""),
    ("float * float", "(#0=1.5, ¦#1)", "Label", ""),
    ("float * int", "(1.25, ¦2.5)", "Misfit", ": expected int"),
    ("float * int", "(1.25, ¦4611686018427387904)", "IntRange", ""),
    ("float * int", "(1.25, ¦18446744073709551616)", "TooBig", ""),
    ("float * float * int", "(1., 2., ¦4611686018427387904)", "IntRange", ""),
    ("float array", "¦[|1.5; 2|]", "Misfit", ": expected float array"),
    ("float array", "[|1.5; 2.5¦)", "Syntax", ""),
]

for typed, marked, name, behind in REFUSED:
    text, position = split(marked)
    ask("", text, "=", BUILD + [typed], [], f"text line 1: {name} at {position}{behind}", 5)

# by lines, with texts before
for typed, marked, name, behind in REFUSED:
    if typed != "float * float":
        continue
    text, position = split(marked)
    good = b"(1.5, -2e-7)\n\n"
    pair = value((0, [Double(1.5), Double(-2e-7)]))
    ask("", good + text + b"\n(1., 2.)\n", "=", BUILD + [typed], pair, f"text line 3: {name} at {position}{behind}", 5)
    ask("", good + text, "=", BUILD + ["--lines", typed], pair, f"text line 3: {name} at 3:{position + 1}{behind}", 5)

ask("file=" + b"type t =\n 1.5".hex(), b"1.5", "none", BUILD + ["t"], [], "types: Syntax at 10", 3)
ask("", b"1.5", "=", BUILD + ["1.5"], [], "type: Syntax at 0", 3)

# ---- scripts

ONE, TWO = of("1.5"), of("2.5")
BOTH = value((0, [Double(1.5), Double(2.5)]))
DEEP = value((0, [3, (0, [Double(1.5), 4])]))
DEEP_TYPE = "int * (float * int)"


def script(text):
    return "script=" + text.encode().hex()


# input, type, script, output
SCRIPTS = [
    (ONE, "float", "0 set . = 2.5", TWO),
    (ONE, "float", "0 set . = 25e-1 (* 1.5 *)", TWO),
    (ONE, "float", "0 set .=2.5", TWO),
    (ONE, "float", "0 set . = $4004000000000000", TWO),
    (ONE + TWO, "float", "(* 0.5 *)\n1 set . = -0.\n\n0 set . = 1e999\n", value(Double(float("inf"))) + value(Double(-0.0))),
    (DEEP, DEEP_TYPE, "0 set .1.0 = -0.25", value((0, [3, (0, [Double(-0.25), 4])]))),
    (DEEP, DEEP_TYPE, "0 set .1.1 = 5", value((0, [3, (0, [Double(1.5), 5])]))),
    (DEEP, DEEP_TYPE, "0 set .1 = (2., 6)", value((0, [3, (0, [Double(2.0), 6])]))),
    (DEEP, DEEP_TYPE, "0 set . 01 . 00 = 0.1e1", value((0, [3, (0, [Double(1.0), 4])]))),
    (DEEP, DEEP_TYPE, "0 set . 1.0 = -0.25", value((0, [3, (0, [Double(-0.25), 4])]))),
    (DEEP, DEEP_TYPE, "0 set .(*c*)1.0 = -0.25", value((0, [3, (0, [Double(-0.25), 4])]))),
    (DEEP, DEEP_TYPE, "0 set . (* 1.5 *)\t1.(**)0 = (* . *) 0.1e1", value((0, [3, (0, [Double(1.0), 4])]))),
    (BOTH, "float * float", "0 link .0 = .1", value((0, [Double(2.5), b"\x04\x01"]))),
    (BOTH + BOTH, "float * float", "1 graft .0 = 0 .1", BOTH + value((0, [Double(2.5), Double(2.5)]))),
    (value(Doubles([1.0, 2.0])), "float array", "0 set . = [|0.5; -1e300; $7ff8000000000001|]",
     value(Doubles([0.5, -1e300, 0x7FF8000000000001]))),
    (ONE, "float", "", ONE),
]

for given, typed, text, made in SCRIPTS:
    ask(script(text), given, "=", EDIT + [typed, "script"], made, "", 0)

# input, type, script with a mark, what is reported before the position and behind it, what was written
FAULTS = [
    (BOTH, "float * float", "0 set .0 = ¦5", "Literal Misfit", ": expected float", b""),
    (BOTH, "float * float", "0 set .0 = 2.5 ¦3", "Literal Syntax", "", b""),
    (BOTH, "float * float", "0 set .0 = 2.5¦.1", "Literal Syntax", "", b""),
    (BOTH, "float * float", "0 set . = (2.25, ¦3)", "Literal Misfit", ": expected float", b""),
    (BOTH, "float * float", "0 set . = (2.25, 3.5¦", "Literal Syntax", "", b""),
    (BOTH, "float * float", "0 set .0 = 1.5\n0 set . = (2.25, ¦3)\n", "Literal Misfit", ": expected float", b""),
    (BOTH, "float * float", "(* 1.5 *) 0 set . = (100., ¦#1=3.)", "Literal Label", "", b""),
    (BOTH + BOTH, "float * float", "0 set .1 = 0.5\n\n 1 set . = (-2.25e-10, ¦\"a\")\n", "Literal Misfit", ": expected float",
     value((0, [Double(1.5), Double(0.5)]))),
    (DEEP, DEEP_TYPE, "0 set .1 = (2.25, ¦4611686018427387904)", "Literal IntRange", "", b""),
    (DEEP, DEEP_TYPE, "0 set .1.1 = ¦2.25", "Literal Misfit", ": expected int", b""),
    # before any value
    (BOTH, "float * float", "0 set .0 = 1.25 ¦?", "BadByte", "", b""),
    (BOTH, "float * float", "0 set .0 = 1.25\n0 set .0 = (2.25, ¦\"a\n", "OpenString", "", b""),
    (BOTH, "float * float", "0 set .0 = 1.25 ¦(* 2.5\n0 set .0 = 1.5 *)\n", "OpenComment", "", b""),
    (BOTH, "float * float", "0 set .0 = 1.25 ¦18446744073709551616", "TooBig", "", b""),
    (BOTH, "float * float", "¦0.0 set . = 1.5", "Syntax", "", b""),
    (BOTH, "float * float", "0 set ¦0.0 = 1.5", "Syntax", "", b""),
    (BOTH + BOTH, "float * float", "1 graft .0 = ¦0.1", "Syntax", "", b""),
    (BOTH, "float * float", "0 link .0 = ¦1.5", "Syntax", "", b""),
    (BOTH, "float * float", "0 set .0 ¦1.5 = 1.5", "Syntax", "", b""),
    (BOTH, "float * float", "0 set . 0 ¦1.5 = 1.5", "Syntax", "", b""),
    (BOTH, "float * float", "0 set . 1¦e5 = 1.5", "Syntax", "", b""),
    (BOTH, "float * float", "0 set .(*c*)¦-1.0 = 1.5", "Syntax", "", b""),
    (BOTH, "float * float", "0 set .0 = 1.5\n0 ¦foo 1.5", "Syntax", "", b""),
]

for given, typed, marked, name, behind, written in FAULTS:
    text, position = split(marked)
    before = text[:position]
    line, byte = before.count(b"\n") + 1, position - (before.rfind(b"\n") + 1)
    for flag, at in (([], str(byte)), (["--lines"], f"{line}:{byte + 1}")):
        ask("script=" + text.hex(), given, "=", EDIT + flag + [typed, "script"], written,
            f"script line {line}: {name} at {at}{behind}", 5)

# what reports no position in a text, and what is without the flag
ask(script("0 set .0 = 1.5\n0 set .2 = 1.5"), BOTH, "=", EDIT + ["float * float", "script"], b"", "script line 2: NoField(left, 0)", 5)
ask(script("1 set .0 = 1.5"), BOTH, "=", EDIT + ["float * float", "script"], BOTH, "script line 1: NoValue", 5)
ask(script("0 set .0 = 1.5\n0 graft . = 0 ."), BOTH, "=", EDIT + ["float * float", "script"], b"", "script line 2: Later", 5)
ask(script("0 set .0 = 2.5"), BOTH, "=", ["edit", "f.ml", "float * float", "script"], b"", "script line 1: Literal Syntax at 12", 5)
ask(script("1 graft .0 = 0.1"), BOTH + BOTH, "=", ["edit", "f.ml", "float * float", "script"],
    BOTH + value((0, [Double(2.5), Double(2.5)])), "", 0)
ask(script("0 set .0 = 2.5"), MAGIC + BOTH, "=", ["edit", "--skip", "12", "--compat32", "--decimal", "f.ml", "float * float", "script"],
    MAGIC + value((0, [Double(2.5), Double(2.5)])), "", 0)

# ---- over lines

PRETTY = ["show", "--decimal", "--pretty", "f.ml"]
FIVE = " * ".join(5 * ["float"])
FOUR = " * ".join(4 * ["float"])
FIFTHS = value((0, [Double(n + 0.5) for n in range(1, 6)]))
WIDE = value((0, [Double(sign * 1.7976931348623157e308) for sign in (-1, 1, -1, 1)]))
LONG = value(listed([Double(n + 0.25) for n in range(1001, 1013)]))

# their bits are too long for a line
ask("", FIFTHS, "=", PRETTY + [FIVE], ["(1.5, 2.5, 3.5, 4.5, 5.5)"], "", 0)
ask("", FIFTHS, "=", ["show", "--pretty", "f.ml", FIVE],
    ["("] + [f"{'  ' if n == 1 else ', '}{plain(bits_of(n + 0.5))}" for n in range(1, 6)] + [")"], "", 0)
# their decimals are
GREAT = "1.7976931348623157e308"
ask("", WIDE, "=", PRETTY + [FOUR], ["(", f"  -{GREAT}", f", {GREAT}", f", -{GREAT}", f", {GREAT}", ")"], "", 0)
ask("", WIDE, "=", ["show", "--pretty", "--decimal", "f.ml", FOUR],
    ["(", f"  -{GREAT}", f", {GREAT}", f", -{GREAT}", f", {GREAT}", ")"], "", 0)
ask("", WIDE, "=", ["show", "--pretty", "f.ml", FOUR],
    ["(" + ", ".join(plain(bits_of(sign * 1.7976931348623157e308)) for sign in (-1, 1, -1, 1)) + ")"], "", 0)
ask("", LONG, "=", PRETTY + ["float list"], ["::(1001.25"] + [f", ::({n}.25" for n in range(1002, 1013)] + [", []" + 12 * ")"], "", 0)
ask("", WIDE, "=", ["get", "--decimal", "--pretty", "f.ml", FOUR, ".1"], [GREAT], "", 0)
ask("", FIFTHS + value(1), "=", PRETTY + [FIVE], ["(1.5, 2.5, 3.5, 4.5, 5.5)", f"no .: expected {FIVE}, found int 1"], "", 1)

# ---- words

ask("", ONE, "=", ["show", "f.ml", "--decimal", "float"], ["1.5"], "", 0)
ask("", ONE, "=", ["show", "f.ml", "float", "--decimal"], ["1.5"], "", 0)
ask("", ONE, "=", ["show", "--decimal", "--", "f.ml", "float"], ["1.5"], "", 0)
ask("", ONE, "=", ["show", "--", "--decimal", "float"], [], "cannot open --decimal", 8)
ask("", ONE, "=", ["show", "--limit", "2", "--decimal", "f.ml", "float"], ["1.5"], "", 0)
ask("", ONE, "=", ["show", "--decimal", "--limit=1", "f.ml", "float"], [], "value 0: TooLarge(words, 2, 1)", 4)
ask("", ONE + TWO, "=", ["show", "--decimal", "--only", "1", "f.ml", "float"], ["2.5"], "", 0)
ask("", MAGIC + ONE, "=", ["show", "--skip", "12", "--decimal", "f.ml", "float"], ["1.5"], "", 0)
ask("", MAGIC + ONE + PAIR, "=", ["get", "--decimal", "--pretty", "--skip", "12", "--only", "0", "--lines", "f.ml", "float", "."], ["1.5"], "", 0)
ask("", b"1.5", "=", ["build", "f.ml", "float", "--decimal"], ONE, "", 0)
ask(script("0 set . = 2.5"), ONE, "=", ["edit", "f.ml", "float", "script", "--decimal"], TWO, "", 0)

for words in (["show", "--decimal", "--decimal", "f.ml", "float"], ["show", "--decimal=true", "f.ml", "float"], ["show", "--decimal", "f.ml"],
              ["--decimal", "show", "f.ml", "float"], ["get", "--decimal", "f.ml", "float"], ["get", "--decimal", "f.ml", "float", ".", "--decimal"],
              ["build", "--decimal", "--decimal", "f.ml", "float"], ["build", "--decimal", "--pretty", "f.ml", "float"],
              ["edit", "--decimal", "f.ml", "float", "script", "--decimal"], ["edit", "--decimal", "f.ml", "float"],
              ["check", "--decimal", "f.ml", "float"], ["check", "--cert", "--decimal", "f.ml", "float"], ["verify", "--decimal", "f.ml", "float", "script"],
              ["trees", "--decimal", "f.ml", "float"], ["dump", "--decimal"], ["same", "--decimal"], ["scan", "--decimal"],
              ["gen", "--decimal", "1", "1", "float"]):
    ask("script=", ONE, "=", words, *USAGE)

# ---- calls that fail

ask("fetch=0", ONE, "=", SHOW + ["float"], [], "cannot open f.ml", 8)
ask("fetch=1 script=", ONE, "=", EDIT + ["float", "script"], b"", "cannot open script", 8)
ask("put_out=0", ONE, "=", SHOW + ["float"], [], "", 7)
ask("out=2", ONE, "=", SHOW + ["float"], ["1. (cut)"], "", 7)

for line in questions if sys.argv[1:] == ["questions"] else answers:
    print(line)

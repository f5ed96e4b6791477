#!/usr/bin/env python3
"""Compares `omarshal verify` and `check --cert` with the independent verifier verify_certificate.py:

    tools/check_certificates.py [PROGRAM [FOLDER]]

Both verifiers have to write the same text to standard output and standard error, with the same status. They are compared

- on streams and certificates written by hand, of which the answers are written by hand too. Each row of the table of refusals in
  docs/FORMAT.md has one at least that is refused so, each code of a token one that is read, and each reason of
  docs/CERTIFICATES.md a certificate that is rejected so (REFUSED, READ and REJECTED below);
- on changed certificates. For each value a certificate is made here by a search from the root, and then changed: a pair left out,
  added or altered, a line left out or doubled, a number one greater or less, two paths exchanged. The certificate that was not
  changed has to be accepted. What `check --cert` writes has to be accepted by both too, with the line and the status of `check`.
  It has to be the certificate that is made here, except that here any aliasing conflict is taken;
- on damaged streams: bytes changed, left out or added, tokens inserted, the end cut off, numbers of the header changed. Often the
  header then states again what the data are. The certificate is that of the stream before the damage, or one that is made of
  the damaged stream, at its type or at `_`. What the program does not say yes to, the other may not say yes to either.

The independent verifier also has to accept and refuse the texts of types as the stored answers of crates/test_conformance say, and to
give the types of the stored tables the same numbers and classes.

The draws of changes and damages are seeded: 23 changes and 24 damages where a value has less than 10,000 bytes, 7 and 8 below
100,000, 1 and 2 above.

Without FOLDER the values are those of READ, the stored ones of crates/test_conformance, and, where there is OCaml, those that it
writes here (expected/shown_values.ml), each at its type, at some types of others, and at its type with a variable in it. FOLDER has
files of OCaml itself, each at its type: KEEP=FOLDER tools/check_real_files.sh keeps them there. PROGRAM is by default the one that
`./omarshal --prove` built.
"""
import contextlib
import io
import multiprocessing
import os
import random
import re
import shutil
import subprocess
import sys
import tempfile
import traceback

here = os.path.dirname(os.path.realpath(__file__))
sys.dont_write_bytecode = True
sys.path.insert(0, here)
import test_questions
import verify_certificate
from value_has_type import Declarations, Input, Refused, read_type, read_value, text_of as type_text

ENVIRONMENT = {**os.environ, "ASAN_OPTIONS": "allocator_may_return_null=1:detect_leaks=0"}
SMALL, BIG = bytes.fromhex("8495a6be"), bytes.fromhex("8495a6bf")
VERIFIER = [sys.executable, "-B", os.path.join(here, "verify_certificate.py")]

# Streams that are read: a type, the header, the data, the certificate entry, and the line of the value. A header is four numbers if
# it is small: the length, the objects, the words on 32 and on 64 bits. It is three numbers if it is big, which has no words on 32
# bits. Where there is no number, the data are the whole stream.
READ = [
    # headers
    ("int", (1, 0, 0, 0), "41", "yes", "yes"),
    ("int", (1, 0, 0), "41", "yes", "yes"),
    ("int", None, "8495a6bf ffffffff 0000000000000001 0000000000000000 0000000000000000 41", "yes", "yes"),
    ("int list", (5, 0, 6, 6), "a041a04240", "yes, pair 0 0, pair 1 0", "yes"),
    ("int list", (7, 3, 9, 9), "a041a042a04340", "yes, pair 0 0, pair 1 0, pair 2 0", "yes"),
    ("bool list", (7, 3, 9), "a041a042a04340", "misfit .1.0", "no .1.0: expected bool, found int 2"),
    # integers, of which the least and the greatest have 63 bits
    ("int", (2, 0, 0, 0), "0080", "yes", "yes"),
    ("char", (3, 0, 0, 0), "010100", "misfit .", "no .: expected char, found int 256"),
    ("char", (5, 0, 0, 0), "02fffffffe", "misfit .", "no .: expected char, found int -2"),
    ("int", (9, 0, 0, 0), "033fffffffffffffff", "yes", "yes"),
    ("char", (9, 0, 0, 0), "03c000000000000000", "misfit .", "no .: expected char, found int -4611686018427387904"),
    # blocks and atoms: the bits 8 and 9 of a header word are any
    ("int ref", (2, 1, 2, 2), "9041", "yes, pair 0 0", "yes"),
    ("int ref", (6, 1, 2, 2), "080000070041", "yes, pair 0 0", "yes"),
    ("int ref", (10, 1, 2, 2), "13000000000000050041", "yes, pair 0 0", "yes"),
    ("int ref", (6, 1, 2, 2), "08000004f341", "misfit .", "no .: expected int ref, found block 243 of 1"),
    ("int array", (1, 0, 0, 0), "80", "yes", "yes"),
    ("int array", (5, 0, 0, 0), "0800000000", "yes", "yes"),
    ("int array", (9, 0, 0, 0), "1300000000000000f3", "misfit .", "no .: expected int array, found atom 243"),
    # strings
    ("string", (1, 1, 2, 2), "20", "yes, pair 0 0", "yes"),
    ("bytes", (4, 1, 2, 2), "23616263", "yes, pair 0 0", "yes"),
    ("string", (2, 1, 2, 2), "0900", "yes, pair 0 0", "yes"),
    ("string", (10, 1, 4, 3), "09086162636465666768", "yes, pair 0 0", "yes"),
    ("string", (8, 1, 2, 2), "0a00000003616263", "yes, pair 0 0", "yes"),
    ("int", (12, 1, 2, 2), "150000000000000003616263", "misfit .", "no .: expected int, found string"),
    # doubles and arrays of doubles
    ("float", (9, 1, 3, 2), "0b3ff0000000000000", "yes, pair 0 0", "yes"),
    ("float", (9, 1, 3, 2), "0c000000000000f03f", "yes, pair 0 0", "yes"),
    ("float array", (10, 1, 3, 2), "0d013ff0000000000000", "yes, pair 0 0", "yes"),
    ("floatarray", (18, 1, 5, 3), "0e02000000000000f03f000000000000f03f", "yes, pair 0 0", "yes"),
    ("float array", (13, 1, 3, 2), "0f000000013ff0000000000000", "yes, pair 0 0", "yes"),
    ("float array", (13, 1, 3, 2), "0700000001000000000000f03f", "yes, pair 0 0", "yes"),
    ("float array", (17, 1, 3, 2), "1600000000000000013ff0000000000000", "yes, pair 0 0", "yes"),
    ("float", (17, 1, 3, 2), "170000000000000001000000000000f03f", "misfit .", "no .: expected float, found float array of 1"),
    # custom blocks, with both codes
    ("int32", (8, 1, 3, 3), "195f690080000000", "yes, pair 0 0", "yes"),
    ("int32", (8, 1, 3, 3), "125f690000000005", "yes, pair 0 0", "yes"),
    ("int64", (12, 1, 4, 3), "195f6a00ffffffffffffffff", "yes, pair 0 0", "yes"),
    ("int64", (12, 1, 4, 3), "125f6a000000000000000005", "yes, pair 0 0", "yes"),
    ("nativeint", (9, 1, 3, 3), "195f6e000100000005", "yes, pair 0 0", "yes"),
    ("nativeint", (13, 1, 3, 3), "195f6e00020000000000000005", "yes, pair 0 0", "yes"),
    ("nativeint", (9, 1, 3, 3), "125f6e000100000005", "yes, pair 0 0", "yes"),
    ("nativeint", (13, 1, 3, 3), "125f6e0002ffffffffffffffff", "yes, pair 0 0", "yes"),
    ("int", (8, 1, 3, 3), "125f690000000005", "misfit .", "no .: expected int, found int32"),
    # references
    ("int list", (4, 1, 3, 3), "a0410401", "yes, pair 0 0", "yes"),
    ("int list", (5, 1, 3, 3), "a041050001", "yes, pair 0 0", "yes"),
    ("int list", (7, 1, 3, 3), "a0410600000001", "yes, pair 0 0", "yes"),
    ("int list", (11, 1, 3), "a041140000000000000001", "yes, pair 0 0", "yes"),
    ("int ref * bool ref", (5, 2, 5, 5), "a090400401", "clash .0 .1",
     "no .0 and .1: int ref and bool ref share a mutable object"),
    # types with a variable
    ("'a list", (1, 0, 0, 0), "40", "yes", "yes"),
    ("'a list", (3, 1, 3, 3), "a04140", "misfit .0", "no .0: expected 'a, found int 1"),
    ("'a option list", (5, 2, 6, 6), "a040a04040", "yes, pair 0 0, pair 1 0", "yes"),
    ("'a array", (1, 0, 0, 0), "80", "yes", "yes"),
    ("'a array", (2, 1, 2, 2), "9041", "misfit .", "no .: expected 'a array, found block 0 of 1"),
    ("'a list ref * 'a list ref", (5, 2, 5, 5), "a090400401", "yes, pair 0 0, pair 1 1", "yes"),
    ("'a list ref * 'b list ref", (5, 2, 5, 5), "a090400401", "clash .0 .1",
     "no .0 and .1: 'a list ref and 'b list ref share a mutable object"),
    ("'a", (1, 0, 0, 0), "40", "misfit .", "no .: expected 'a, found int 0"),
    # `_`
    ("_", (2, 1, 2, 2), "9041", "yes, pair 0 0", "yes"),
    ("int ref * _", (5, 2, 5, 5), "a090400401", "yes, pair 0 0, pair 1 1", "yes"),
]

# Streams that are refused: the row of the table of refusals in docs/FORMAT.md, or none if they are truncated; the header and the
# data as above; and the refusal. They are read at `_`, with an entry to which a verifier says yes if it does not refuse them.
REFUSED = [
    ("H1", None, "8495a6bd", "Compressed"),
    ("H1", None, "8495a6bd 00000001 00000000 00000000 00000000 41", "Compressed"),
    ("H1", None, "8495a6bc", "BadMagic(8495a6bc)"),
    ("H1", None, "00000000 00000001 00000000 00000000 00000000 41", "BadMagic(00000000)"),
    ("H2", (1, 0, 0, 134217729), "41", "TooLarge(words, 134217729, 134217728)"),
    ("H2", (2 ** 48, 0, 2 ** 64 - 1), "41", "TooLarge(words, 18446744073709551615, 134217728)"),
    ("H3", (2 ** 48, 0, 0), "41", "TooLarge(length, 281474976710656, 281474976710655)"),
    ("H4", (0, 0, 0, 0), "", "Overlong(1, 0) at 20"),
    ("H4", (0, 0, 0), "", "Overlong(1, 0) at 32"),
    *[("T1", (1, 0, 0, 0), f"{code:02x}", f"BadCode({code:02x}) at 20") for code in range(0x1A, 0x20)],
    ("T1", (3, 1, 3, 3), "a010", "PointerCode(10) at 21"),
    ("T1", (3, 1, 3, 3), "a011", "PointerCode(11) at 21"),
    ("T1", (1, 0, 0, 0), "18", "OtherCustom(18) at 20"),
    ("T2", (1, 0, 0, 0), "00", "Overlong(1, 0) at 20"),
    ("T2", (2, 0, 0, 0), "01", "Overlong(2, 1) at 20"),
    ("T2", (4, 0, 0, 0), "02", "Overlong(4, 3) at 20"),
    ("T2", (8, 0, 0, 0), "03", "Overlong(8, 7) at 20"),
    ("T2", (3, 1, 3, 3), "a04104", "Overlong(1, 0) at 22"),
    ("T2", (4, 1, 2, 2), "08", "Overlong(4, 3) at 20"),
    ("T2", (8, 1, 2, 2), "13", "Overlong(8, 7) at 20"),
    ("T2", (4, 1, 2, 2), "0a", "Overlong(4, 3) at 20"),
    ("T2", (8, 1, 3, 2), "0b", "Overlong(8, 7) at 20"),
    ("T2", (8, 1, 3, 2), "0c", "Overlong(8, 7) at 20"),
    ("T2", (8, 1, 3, 2), "17", "Overlong(8, 7) at 20"),
    ("T2", (3, 1, 3, 3), "19", "Overlong(3, 2) at 20"),
    *[("T3", (6, 1, 2, 2), f"08000004{tag:02x}41", f"BadTag({tag}) at 20") for tag in range(244, 256)],
    ("T3", (10, 1, 2, 2), "1300000000000004ff41", "BadTag(255) at 20"),
    ("T3", (5, 0, 0, 0), "08000000f4", "BadTag(244) at 20"),
    ("T3", (2, 0, 0, 0), "0401", "BadShared(1, 0) at 20"),
    ("T3", (4, 1, 3, 3), "a0410400", "BadShared(0, 1) at 22"),
    ("T3", (4, 1, 3, 3), "a0410402", "BadShared(2, 1) at 22"),
    ("T3", (4, 0, 3, 3), "a0410402", "BadShared(2, 1) at 22"),
    ("T3", (5, 1, 3, 3), "a041050101", "BadShared(257, 1) at 22"),
    ("T3", (7, 1, 3, 3), "a0410680000001", "BadShared(2147483649, 1) at 22"),
    ("T3", (11, 1, 3, 3), "a04114ffffffffffffffff", "BadShared(18446744073709551615, 1) at 22"),
    ("T3", (4, 0, 3, 3), "a0410401", "NoTable at 22"),
    ("T3", (9, 1, 3, 3), "195f7800", "OtherCustom(19) at 20"),
    ("T3", (8, 1, 3, 3), "195f690100000005", "OtherCustom(19) at 20"),
    ("T3", (4, 0, 0, 0), "125f7800", "OtherCustom(12) at 20"),
    ("T3", (9, 0, 0, 0), "034000000000000000", "IntRange(4611686018427387904) at 20"),
    ("T3", (10, 1, 2, 2), "90034000000000000000", "IntRange(4611686018427387904) at 21"),
    ("T3", (10, 1, 2, 2), "9003bfffffffffffffff", "IntRange(-4611686018427387905) at 21"),
    *[("T3", (2, 1, 1, 1), f"{code}00", "ZeroArray at 20") for code in ("0d", "0e")],
    *[("T3", (5, 1, 1, 1), f"{code}00000000", "ZeroArray at 20") for code in ("0f", "07")],
    *[("T3", (9, 1, 1, 1), f"{code}0000000000000000", "ZeroArray at 20") for code in ("16", "17")],
    ("T4", (3, 1, 2, 2), "23616263", "Overlong(3, 2) at 20"),
    ("T4", (10, 1, 3, 2), "0909", "Overlong(9, 8) at 20"),
    ("T4", (9, 1, 3, 2), "0e01", "Overlong(8, 7) at 20"),
    ("T4", (7, 1, 3, 3), "195f6900", "Overlong(4, 3) at 20"),
    ("T4", (11, 1, 4, 3), "195f6a00", "Overlong(8, 7) at 20"),
    ("T4", (9, 1, 2, 2), "15ffffffffffffffff", "Overlong(18446744073709551615, 0) at 20"),
    ("T4", (9, 1, 1, 1), "172000000000000000", "Overlong(18446744073709551616, 0) at 20"),
    ("T4a", (4, 1, 3, 3), "195f6e00", "Overlong(1, 0) at 20"),
    ("T4b", (5, 1, 3, 3), "195f6e0000", "BadNative(0) at 20"),
    ("T4b", (17, 1, 3, 3), "195f6e0003000000000000000000000005", "BadNative(3) at 20"),
    ("T4c", (8, 1, 3, 3), "195f6e0001", "Overlong(4, 3) at 20"),
    ("T4c", (12, 1, 3, 3), "195f6e0002", "Overlong(8, 7) at 20"),
    ("T5", (3, 1, 3, 3), "a000", "Overlong(1, 0) at 21"),
    ("T5", (2, 1, 3, 3), "a0", "Overlong(2, 1) at 20"),
    ("T5", (9, 1, 3, 3), "13fffffffffffffc00", "Overlong(18014398509481983, 0) at 20"),
    ("T5", (5, 2, 5, 5), "a0236162", "Overlong(1, 0) at 21"),
    ("T6", (9, 1, 2, 2), "0c", "SizeMismatch(w32, 2, 3) at 20"),
    ("T6", (10, 1, 3, 2), "0908", "SizeMismatch(w32, 3, 4) at 20"),
    ("T6", (7, 3, 8, 9), "a041a042a0", "SizeMismatch(w32, 8, 9) at 24"),
    ("T6", (9, 1, 3, 1), "0c", "SizeMismatch(w64, 1, 2) at 20"),
    ("T6", (9, 1, 1), "0c", "SizeMismatch(w64, 1, 2) at 32"),
    ("E1", (2, 0, 0, 0), "41", "LengthMismatch(1) at 21"),
    ("E1", (5, 4, 3, 3), "a041404041", "LengthMismatch(2) at 23"),
    ("E2", (7, 3, 10, 9), "a041a042a04340", "SizeMismatch(w32, 10, 9) at 27"),
    ("E2", (7, 4, 10, 10), "a041a042a04340", "SizeMismatch(w32, 10, 9) at 27"),
    ("E2", (4, 1, 3, 2), "23616263", "SizeMismatch(w32, 3, 2) at 24"),
    ("E2", (9, 1, 4, 2), "0c000000000000f03f", "SizeMismatch(w32, 4, 3) at 29"),
    ("E2", (10, 1, 4, 2), "0e01000000000000f03f", "SizeMismatch(w32, 4, 3) at 30"),
    ("E2", (8, 1, 4, 3), "125f690000000005", "SizeMismatch(w32, 4, 3) at 28"),
    ("E2", (12, 1, 5, 3), "195f6a000000000000000005", "SizeMismatch(w32, 5, 4) at 32"),
    ("E2", (9, 1, 4, 3), "195f6e000100000005", "SizeMismatch(w32, 4, 3) at 29"),
    ("E3", (7, 3, 9, 10), "a041a042a04340", "SizeMismatch(w64, 10, 9) at 27"),
    ("E3", (7, 4, 10), "a041a042a04340", "SizeMismatch(w64, 10, 9) at 39"),
    ("E3", (10, 1, 4, 4), "09086162636465666768", "SizeMismatch(w64, 4, 3) at 30"),
    ("E3", (9, 1, 3, 3), "0c000000000000f03f", "SizeMismatch(w64, 3, 2) at 29"),
    ("E3", (10, 1, 3, 3), "0e01000000000000f03f", "SizeMismatch(w64, 3, 2) at 30"),
    ("E3", (12, 1, 4, 4), "195f6a000000000000000005", "SizeMismatch(w64, 4, 3) at 32"),
    ("E4", (7, 4, 9, 9), "a041a042a04340", "CountMismatch(4, 3) at 27"),
    ("E4", (7, 2, 9, 9), "a041a042a04340", "CountMismatch(2, 3) at 27"),
    ("E4", (4, 2, 3, 3), "a0410401", "CountMismatch(2, 1) at 24"),
    ("E4", (4, 2 ** 64 - 1, 3), "a0410401", "CountMismatch(18446744073709551615, 1) at 36"),
    ("", None, "84", "Truncated(1)"),
    ("", None, "8495a6", "Truncated(3)"),
    ("", None, "8495a6be", "Truncated(4)"),
    ("", None, "8495a6be 00000001 00000000 00000000 000000", "Truncated(19)"),
    ("", None, "8495a6bf 00000000 0000000000000001 0000000000000000 00000000000000", "Truncated(31)"),
    ("", (1, 0, 0, 0), "", "Truncated(20)"),
    ("", (2, 0, 0, 0), "00", "Truncated(21)"),
    ("", (9, 0, 0, 0), "034000", "Truncated(23)"),
    ("", (5, 1, 3, 3), "a04105ff", "Truncated(24)"),
    ("", (6, 1, 2, 2), "080000", "Truncated(23)"),
    ("", (6, 1, 2, 2), "08000004f3", "Truncated(25)"),
    ("", (4, 1, 2, 2), "236162", "Truncated(23)"),
    ("", (7, 1, 2, 2), "0a000000", "Truncated(24)"),
    ("", (10, 1, 4, 3), "0908", "Truncated(22)"),
    ("", (9, 1, 3, 2), "0c000000000000f0", "Truncated(28)"),
    ("", (10, 1, 3, 2), "0e01", "Truncated(22)"),
    ("", (8, 1, 3, 3), "195f69", "Truncated(23)"),
    ("", (8, 1, 3, 3), "195f6900000000", "Truncated(27)"),
    ("", (9, 1, 3, 3), "195f6e00", "Truncated(24)"),
    ("", (13, 1, 3, 3), "195f6e000200000005", "Truncated(29)"),
    ("", (7, 3, 9, 9), "a041a042a043", "Truncated(26)"),
]

# Certificates that are not accepted: a type, the header, the data, the certificate entry, and the line on standard error.
LIST, PAIR = ((7, 3, 9, 9), "a041a042a04340"), ((5, 2, 5, 5), "a090400401")
REJECTED = [
    ("int list", *LIST, "yes, pair 0 0, pair 1 0, pair 2 0, pair 3 0", "value 0: certificate Range(3)"),
    ("int list", *LIST, "yes, pair 0 0, pair 0 9", "value 0: certificate Range(1)"),
    ("int list", *LIST, "yes, pair 0 1, pair 1 0, pair 2 0", "value 0: certificate Unfit(0)"),
    ("int list", *LIST, "yes, pair 0 0, pair 2 0", "value 0: certificate Need(0, 1)"),
    ("bool list", *LIST, "yes, pair 0 0, pair 1 0, pair 2 0", "value 0: certificate Need(1, 0)"),
    ("int list", *LIST, "yes, pair 1 0, pair 2 0", "value 0: certificate Root"),
    ("int", (1, 0, 0, 0), "80", "yes", "value 0: certificate Root"),
    ("int ref * bool ref", *PAIR, "yes, pair 0 0, pair 1 1, pair 1 2", "value 0: certificate TwoTypes(1)"),
    ("int list", *LIST, "misfit .0", "value 0: certificate NotFault"),
    ("int list", *LIST, "misfit .2", "value 0: certificate NotFault"),
    ("int list", *LIST, "misfit .0.0", "value 0: certificate NotFault"),
    ("int ref * _", *PAIR, "misfit .1", "value 0: certificate NotFault"),
    ("int ref * bool ref", *PAIR, "clash .1 .0", "value 0: certificate NotFault"),
    ("int ref * bool ref", *PAIR, "clash .0 .0", "value 0: certificate NotFault"),
    ("int ref * int ref", *PAIR, "clash .0 .1", "value 0: certificate NotFault"),
    ("int option * bool option", *PAIR, "clash .0 .1", "value 0: certificate NotFault"),
    ("int ref * bool ref", (5, 3, 7, 7), "a090409040", "clash .0 .1", "value 0: certificate NotFault"),
    ("int * bool", (3, 1, 3, 3), "a04040", "clash .0 .1", "value 0: certificate NotFault"),
    ("int list", *LIST, "yes, pair 0 0, pair 0 0", "certificate line 3: Syntax"),
    ("int list", *LIST, "yes, pair 1 0, pair 0 0", "certificate line 3: Syntax"),
    ("int list", *LIST, "yes, pair 00 0", "certificate line 2: Syntax"),
    ("int list", *LIST, "yes, pair 0 9223372036854775808", "certificate line 2: Syntax"),
    ("int list", *LIST, "misfit .0, pair 0 0", "certificate line 2: Syntax"),
    ("int list", *LIST, "yes, pair 0 0, pair 1 0, pair 2 0, end, value 2 yes", "certificate line 6: Syntax"),
    ("int", (1, 0, 0, 0), "41", "yes, end, value 1 yes", "sections left"),
    ("int", None, "8495a6be 00000001 00000000 00000000 00000000 41 8495a6be 00000001 00000000 00000000 00000000 41", "yes",
     "value 1: no section"),
]

# Tokens that are inserted into damaged streams: some of each code, and with numbers that are refused.
TOKENS = [bytes.fromhex(token) for token in """
    40 7f 80 8f 90 91 a0 f3 20 2161 23616263 0000 00ff 010100 0200000005 020000 033fffffffffffffff 034000000000000000
    03bfffffffffffffff 0400 0401 0402 04ff 050001 0600000001 140000000000000001 0800000000 0800000401 080000070041 08000004f341
    08000004f441 08000004fb41 08fffffc0041 13000000000000040041 1300000000000004f441 0900 090161 0a0000000161 15000000000000000161
    0b3ff0000000000000 0c000000000000f03f 0d00 0d013ff0000000000000 0e00 0e01000000000000f03f 0f000000013ff0000000000000
    0700000001000000000000f03f 0700000000 1600000000000000013ff0000000000000 170000000000000001000000000000f03f
    172000000000000001 10 11 18 1a 1f 125f690000000005 195f690000000005 195f6a000000000000000005 195f6e000100000005
    195f6e00020000000000000005 195f6e000300000005 195f6e00 195f6e0001 195f7800 125f7800""".split()]


def made(table, root, objects):
    """The lines of a certificate entry without its number: the pairs that paths reach, or a fault."""
    met, first, row = {}, {}, [(root, 0, None)]
    while row:
        later = []
        for value, t, path in row:
            good, _, needs = table.fit(value, t, objects)
            if not good:
                return [f"misfit {path_text(steps_of(path))}"]
            pair = value[0] == "ref" and (value[1], table.classes[t])
            if not pair or pair in met:
                continue
            met[pair] = t
            first.setdefault(value[1], []).append((path, t))
            later += [(objects[value[1]][2][step], u, (path, step)) for step, u in needs.items()]
        row = later
    for o, visits in first.items():
        if len(visits) > 1 and any(table.fit(("ref", o), t, objects)[1] for _, t in visits):
            mutable = next(visit for visit in visits if table.fit(("ref", o), visit[1], objects)[1])
            other = next(visit for visit in visits if visit is not mutable)
            one, two = sorted([steps_of(mutable[0]), steps_of(other[0])], key=lambda path: (len(path), path))
            return [f"clash {path_text(one)} {path_text(two)}"]
    least = {c: table.classes.index(c) for c in table.classes}
    return ["yes"] + [f"pair {o} {t}" for o, t in sorted((o, least[c]) for o, c in met)]


def steps_of(path):
    """The steps of a path, which is met as the path before its last step, and that step: so paths share what they have."""
    steps = []
    while path:
        path, step = path
        steps.append(step)
    return steps[::-1]


def path_text(path):
    return "." + ".".join(map(str, path))


def altered(line, draw):
    """The line with one of its numbers one greater or less, if it has any."""
    numbers = list(re.finditer("[0-9]+", line))
    if not numbers:
        return line
    number = draw.choice(numbers)
    return line[:number.start()] + str(max(0, int(number[0]) + draw.choice((-1, 1)))) + line[number.end():]


def changed(lines, draw):
    """The lines with one of them left out, doubled or altered; mostly so that they are a certificate again."""
    at, lines = draw.randrange(len(lines)), list(lines)
    if draw.randrange(4) == 0:
        lines[at:at + 1] = draw.choice(([], 2 * [lines[at]], [altered(lines[at], draw)]))
        return lines
    head, pairs = lines[0], [tuple(map(int, line.split()[1:])) for line in lines[1:-1]]
    if " clash " in head and draw.randrange(3) == 0:
        one, two = head.split(" ")[3:]
        return [f"value 0 clash {two} {draw.choice((one, two))}"] + lines[1:]
    if not head.endswith("yes"):
        return ["value 0 " + altered(head[8:], draw)] + lines[1:]
    how, one = draw.randrange(3), draw.choice(pairs or [(0, 0)])
    if how < 2 and one in pairs:
        pairs.remove(one)
    if how > 0:
        pairs.append((max(0, one[0] + draw.randrange(-1, 2)), max(0, one[1] + draw.randrange(-1, 3))))
    return [head] + [f"pair {o} {t}" for o, t in sorted(set(pairs))] + ["end"]


class Asked:
    """A table that is asked of the values of one heap, if that is not large: it keeps its answers."""

    def __init__(self, table):
        self.table, self.types, self.classes, self.known = table, table.types, table.classes, {}

    def fit(self, value, t, objects):
        if (value, t) not in self.known:
            self.known[value, t] = self.table.fit(value, t, objects)
        return self.known[value, t]


def by_program(program, command, words, stream, certificate=None):
    """The standard output, the standard error and the status of the program."""
    if certificate is not None:
        with open("certificate", "w", encoding="latin-1") as file:
            file.write(certificate)
        words = [*words, "certificate"]
    ran = subprocess.run([*program, *command, *words], input=stream, capture_output=True, env=ENVIRONMENT)
    return ran.stdout.decode("latin-1"), ran.stderr.decode("latin-1"), ran.returncode


def by_verifier(table, certificate, stream, read=read_value):
    """The same of verify_certificate.py, without a process of its own."""
    out, err = io.StringIO(), ""
    try:
        with contextlib.redirect_stdout(out):
            status = verify_certificate.verify(table, certificate.encode("latin-1"), stream, read)
    except Refused as refusal:
        status, err = refusal.status, f"omarshal: {refusal}\n"
    except Exception as error:  # a fault of the verifier, which is no answer of the program
        status, err = None, repr(error)
    return out.getvalue(), err, status


class Case:
    """A value at a type: the words of a call but the certificate, the bytes, the value, which is read once, the table of
    the type, and the certificate that is made here."""

    def __init__(self, words, stream, table):
        self.words, self.stream, self.table = words, stream, Asked(table) if len(stream) < 100_000 else table
        reading = Input(stream)
        self.value, self.end = read_value(reading), reading.at
        lines = made(self.table, *self.value)
        self.lines = [f"value 0 {lines[0]}"] + lines[1:] + ["end"]

    def read(self, stream):
        """The value, as if it was read."""
        stream.at = self.end
        return self.value

    def by_both(self, program, text):
        """What the program and verify_certificate.py say where they verify this certificate."""
        return (by_program(program, ["verify"], self.words, self.stream, text),
                by_verifier(self.table, text, self.stream, self.read))

    def error_of_certificate(self, program):
        """What is wrong with the certificate that `check --cert` writes for the value, or nothing."""
        checked = by_program(program, ["check"], self.words, self.stream)
        text, err, status = by_program(program, ["check", "--cert"], self.words, self.stream)
        if (err, status) != checked[1:]:
            return f"ends with {(err, status)}, check with {checked[1:]}"
        if " clash " not in text and text != text_of(self.lines):
            return f"writes {shortened(text)}, where {shortened(text_of(self.lines))} is made"
        for who, answer in zip(("verify", "the other"), self.by_both(program, text)):
            if answer != checked:
                return f"writes {shortened(text)}, of which {who} says {answer}, and check {checked}"
        return None


def text_of(lines):
    return "".join(line + "\n" for line in lines)


def shortened(text):
    return repr(text if len(text) < 400 else text[:200] + " .. " + text[-200:])


# Streams by hand.

def header(numbers):
    """A small header of four numbers, or a big one of three."""
    magic, size = (SMALL, 4) if len(numbers) == 4 else (BIG + bytes(4), 8)
    return magic + b"".join(number.to_bytes(size, "big") for number in numbers)


def stream_of(numbers, data):
    return (header(numbers) if numbers else b"") + bytes.fromhex(data)


def entry_at_any(data):
    """The certificate of a value at `_`: a pair for its root, unless it is an integer."""
    return "value 0 yes\n" + ("" if data and (data[0] < 4 or 0x40 <= data[0] < 0x80) else "pair 0 0\n") + "end\n"


def certificate_by_hand(entry):
    """The certificate with the lines of an entry, which are separated by commas."""
    return "value 0 " + text_of([*entry.split(", "), "end"])


def streams_by_hand():
    """The type, the stream, the certificate and what has to be said of it, of each row of READ, REJECTED and REFUSED. A stream that
    is refused also comes after another value. A certificate is also cut off at each of its bytes."""
    for name, numbers, data, entry, line in READ:
        wanted = (line + "\n", "", 0 if line == "yes" else 1)
        yield name, stream_of(numbers, data), certificate_by_hand(entry), wanted
    for name, numbers, data, entry, line in REJECTED:
        accepted = "yes\n" if line in ("sections left", "value 1: no section") else ""
        yield name, stream_of(numbers, data), certificate_by_hand(entry), (accepted, f"omarshal: {line}\n", 12)
    whole = certificate_by_hand("yes, pair 0 0, pair 1 0, pair 2 0")
    for size in range(1, len(whole)):
        line = whole[:size].count("\n") + 1
        yield "int list", stream_of(*LIST), whole[:size], ("", f"omarshal: certificate line {line}: Syntax\n", 12)
    before, entry = stream_of((2, 1, 2, 2), "9041"), "value 0 yes\npair 0 0\nend\n"
    for _, numbers, data, refusal in REFUSED:
        stream, certificate = stream_of(numbers, data), entry_at_any(bytes.fromhex(data))
        yield "_", stream, certificate, ("", f"omarshal: value 0: {refusal}\n", 4)
        certificate = entry + certificate.replace("value 0", "value 1")
        yield "_", before + stream, certificate, ("yes\n", f"omarshal: value 1: {refusal}\n", 4)


def said_by_hand(work):
    """What came of one stream by hand, as `compared` says it."""
    program, (name, stream, certificate, wanted) = work
    wrong, answers = [], []
    for who, command in ((program, ["verify"]), (VERIFIER, [])):
        answers.append(by_program(who, command, ["/dev/null", name], stream, certificate))
        if answers[-1] != wanted:
            wrong.append(f"FAILED: {who[-1]}: {stream.hex()} at {name}: says {answers[-1]}, expected {wanted}")
    return wrong, 0, answers


def rows_of_refusals():
    """The rows of the table of refusals in docs/FORMAT.md, and those of REFUSED: the check, and the name of the refusal, which for
    TooLarge and SizeMismatch has the number that is wrong."""
    name = r"\w+(?:\([a-z]\w+)?"
    with open(os.path.join(here, "../docs/FORMAT.md"), encoding="utf-8") as file:
        rows = re.findall(rf"^\| ([HTE]\d[a-c]?) \| `({name})", file.read(), re.M)
    return set(rows), {(row, re.match(name, refusal)[0]) for row, _, _, refusal in REFUSED if row}


# Damaged streams.

def numbers_of(stream):
    """The offset and the size of each number of the header: the length, the objects, and the words."""
    return [(8, 8), (16, 8), (24, 8)] if stream[:4] == BIG else [(4, 4), (8, 4), (12, 4), (16, 4)]


def stated(stream, which):
    offset, size = numbers_of(stream)[which]
    return int.from_bytes(stream[offset:offset + size], "big")


def stating(stream, which, number):
    """The stream with another number in its header."""
    offset, size = numbers_of(stream)[which]
    return stream[:offset] + (number % 256 ** size).to_bytes(size, "big") + stream[offset + size:]


def start_of(stream):
    """The size of the header."""
    return sum(numbers_of(stream)[-1])


def first_of_data(stream):
    """The offset of the first byte of the data, or of the last byte if there are none."""
    return min(start_of(stream), len(stream) - 1)


def with_length(stream):
    """The stream with a header that states the length of the data."""
    return stating(stream, 0, len(stream) - start_of(stream))


def with_right_header(stream):
    """The stream with a header that states what its data are. It is read with a header that states too much, and each refusal has
    a right number. If the data themselves are refused, the header goes on stating too much."""
    stream = with_length(stream)
    for which in range(1, len(numbers_of(stream))):
        stream = stating(stream, which, 2 ** 26)
    for _ in range(5):
        try:
            read_value(Input(stream))
            break
        except Refused as refusal:
            words = re.findall(r"\w+", str(refusal))
        if words[0] == "LengthMismatch":
            stream = with_length(stream[:-int(words[1])])
        elif words[0] in ("SizeMismatch", "CountMismatch"):
            stream = stating(stream, {"w32": 2, "w64": -1}.get(words[1], 1), int(words[-3]))
        else:
            break
    return stream


def changed_bytes(stream, draw):
    """The stream with one to three bytes changed, mostly in the data."""
    stream = bytearray(stream)
    for _ in range(draw.randrange(1, 4)):
        at = draw.randrange(draw.choice((0, first_of_data(stream), first_of_data(stream))), len(stream))
        byte = stream[at]
        stream[at] = draw.choice((draw.randrange(256), draw.randrange(32), (byte + 1) % 256, (byte - 1) % 256,
                                  byte ^ 1 << draw.randrange(8)))
    return bytes(stream)


def changed_data(stream, draw):
    """The stream with a token inserted, written over or as the last one, with some bytes left out or doubled, or with more bytes at
    its end."""
    at, size, token = draw.randrange(first_of_data(stream), len(stream)), draw.randrange(1, 9), draw.choice(TOKENS)
    before, after = stream[:at], stream[at:]
    return draw.choice((before + token + after, before + token + after[1:], before + token + after[len(token):], before + token,
                        before + after[size:], before + after[:size] + after, stream + draw.randbytes(size)))


def changed_number(stream, draw):
    """The stream with a number of its header changed."""
    count = len(numbers_of(stream))
    which = draw.randrange(count)
    number, other = stated(stream, which), stated(stream, draw.randrange(count))
    return stating(stream, which, draw.choice((number + 1, number - 1, 0, 2 * number, other, -1, 2 ** 27 + 1, 2 ** 48,
                                               draw.randrange(100), draw.randrange(2 ** 20))))


def without_objects(stream, draw):
    """The stream with a header that states no objects, as OCaml writes it with `No_sharing`: then no token may be a reference."""
    return stating(stream, 1, 0)


def other_header(stream, draw):
    """The stream with the numbers in a header of the other form."""
    length, objects, *_, words = [stated(stream, which) for which in range(len(numbers_of(stream)))]
    data = stream[start_of(stream):]
    if stream[:4] == SMALL:
        return BIG + draw.randbytes(4) + header((length, objects, words))[8:] + data
    return header(tuple(number % 2 ** 32 for number in (length, objects, draw.choice((0, words)), words))) + data


def cut(stream, draw):
    return stream[:draw.randrange(1, len(stream))]


def damaged(stream, draw):
    """The stream with one to three damages."""
    for _ in range(draw.choice((1, 1, 2, 3))):
        if stream[:4] not in (SMALL, BIG) or len(stream) < start_of(stream):
            break
        how = draw.choice(2 * (changed_bytes,) + 3 * (changed_data,) + (changed_number, without_objects, other_header, cut))
        stream = how(stream, draw)
        header_then = draw.choice((None, with_length, with_right_header))
        if header_then and how in (changed_bytes, changed_data) and len(stream) > start_of(stream):
            stream = header_then(stream)
    return stream


def certificate_of(table, stream):
    """The certificate of a stream, up to the first value that is refused, with the entry of this one at `_`."""
    reading, lines, k = Input(stream), [], 0
    while reading.at < len(stream):
        try:
            entry = made(table, *read_value(reading))
        except Refused:
            refused = stream[reading.start:]
            return text_of(lines) + entry_at_any(refused[start_of(refused):]).replace("value 0", f"value {k}")
        lines += [f"value {k} {entry[0]}", *entry[1:], "end"]
        k += 1
    return text_of(lines)


def damages(program, types, name, stream, draw):
    """What both say of damaged streams: the lines to be printed, and each answer."""
    wrong, answers = [], []
    whole = certificate_of(table_of(types, name), stream)
    for _ in range(turns(len(stream))):
        form = draw.choice((name, name, "_"))
        table, bad = table_of(types, form), damaged(stream, draw)
        certificate = whole if form == name and draw.randrange(2) else certificate_of(table, bad)
        got = by_program(program, ["verify"], [types, form], bad, certificate)
        wanted = by_verifier(table, certificate, bad)
        answers.append(wanted)
        if got != wanted:
            wrong.append(f"FAILED: {shortened(bad.hex())} at {form} of {types}, {shortened(certificate)}: says {got}, "
                         f"expected {wanted}")
    return wrong, answers


# Texts of types.

def said_of_types(question):
    """`accepted` or `refused`, or the rows of a table: what the independent verifier says to a stored question."""
    kind, _, rest = question.partition(" ")
    name, _, declared = ("int", "", rest) if kind == "decls" else rest.partition(" over ")
    try:
        table = verify_certificate.Table(*read_type(Declarations(declared), name))
    except Refused:
        return "refused"
    rows = [(str(t), type_text(form), str(table.classes.index(table.classes[t]))) for t, form in enumerate(table.types)]
    return rows if kind == "table" else "accepted"


def stored_texts():
    """The stored questions about texts of types, each with the answer in the form of `said_of_types`."""
    for question, answer in test_questions.stored():
        question, answer = question.decode("latin-1"), answer.decode("latin-1")
        if question.split(" ")[0] in ("decls", "type", "table"):
            rows = re.findall(r"^(\d+) (.*?): .*; as (\d+);", answer, re.M)
            yield question, "refused" if re.match("types?: ", answer) else rows or "accepted"


# The values.

def values_read():
    """The streams of READ, each with its type."""
    os.mkdir("read")
    for number, (name, numbers, data, _, _) in enumerate(READ):
        path = os.path.abspath(f"read/{number}.bin")
        with open(path, "wb") as file:
            file.write(stream_of(numbers, data))
        yield path, "/dev/null", [name]


def stored_values():
    """The streams of crates/test_conformance, which OCaml wrote, with the types at which its questions ask about them."""
    crate, values = os.path.join(here, "../crates/test_conformance"), {}
    with open(f"{crate}/stdin", encoding="latin-1") as file:
        for kind, file_name, name in re.findall(r"^(stream|value) (\S+) at (.*)$", file.read(), re.M):
            types = os.path.realpath(f"{crate}/data/{file_name}.types") if kind == "value" else "/dev/null"
            values.setdefault((os.path.realpath(f"{crate}/data/{file_name}.stream"), types), []).append(name)
    return [(path, types, names) for (path, types), names in values.items()]


def written_values(draw):
    """The values that OCaml writes, each with some types: its own one first."""
    shutil.copy(os.path.join(here, "expected/shown.types"), "shown.ml")
    shutil.copy(os.path.join(here, "expected/shown_values.ml"), ".")
    os.mkdir("values")
    subprocess.run(["ocamlc", "-w", "-a", "-c", "shown.ml"], check=True)
    subprocess.run(["ocamlc", "-w", "-a", "-o", "write_values", "shown.cmo", "shown_values.ml"], check=True)
    table = subprocess.run(["./write_values", "values"], check=True, capture_output=True, text=True).stdout
    values = [line.split("\t") for line in table.splitlines()]
    types = sorted({own for _, own in values})
    return [(os.path.abspath(os.path.join("values", file)), os.path.abspath("shown.ml"), [own] + draw.sample(types, 3))
            for file, own in values]


def kept_values(folder):
    """The files in a folder, each with its type."""
    with open(os.path.join(folder, "values.tsv"), encoding="latin-1") as file:
        rows = [line.rstrip("\n").split("\t") for line in file]
    return [(os.path.join(folder, name), types, [own]) for name, types, own in rows]


def all_values(folder):
    """The values of a folder, or else those that are here."""
    if folder:
        return kept_values(folder)
    values = [*values_read(), *stored_values()]
    if shutil.which("ocamlc"):
        return values + written_values(random.Random(1))
    print("skipped: the values that OCaml writes here, as there is no ocamlc")
    return values


def main():
    program = os.path.abspath(sys.argv[1] if len(sys.argv) > 1 else os.path.join(here, "../crates/omarshal/out/omarshal"))
    folder = os.path.abspath(sys.argv[2]) if len(sys.argv) > 2 else None
    if not os.access(program, os.X_OK):
        print(f"there is no program {program}: ./omarshal --prove builds it")
        return 2
    work = tempfile.mkdtemp()
    try:
        os.chdir(work)
        return compare([program], all_values(folder), 1)
    finally:
        shutil.rmtree(work)


def table_of(types, name, known={}):
    """The table of a type over the declarations of a file, each made once."""
    if types not in known:
        with open(types, encoding="latin-1") as file:
            known[types] = Declarations(file.read())
    if (types, name) not in known:
        known[types, name] = verify_certificate.Table(*read_type(known[types], name))
    return known[types, name]


def turns(size):
    """How many certificates are tried of a value of so many bytes, the first of which is not changed, and how many damages."""
    return 24 if size < 10_000 else 8 if size < 100_000 else 2


def is_one_value(stream):
    reading = Input(stream)
    try:
        read_value(reading)
    except Refused:
        return False
    return reading.at == len(stream)


def certificates(program, types, names, path, stream, draw):
    """What both say of changed certificates of a value: the lines to be printed, and each answer."""
    wrong, answers = [], []
    for name in names:
        case = Case([types, name], stream, table_of(types, name))
        error = case.error_of_certificate(program)
        if error:
            wrong.append(f"FAILED: check --cert of {path} at {name} {error}")
        for turn in range(turns(len(stream)) if name == names[0] else 4):
            lines = changed(case.lines, draw) if turn else case.lines
            got, wanted = case.by_both(program, text_of(lines))
            answers.append(wanted)
            if got != wanted or not turn and got[2] != (0 if lines[0].endswith("yes") else 1):
                wrong.append(f"FAILED: {path} at {name}, {shortened(text_of(lines))}: says {got}, expected {wanted}")
    return wrong, answers


def with_variable(name):
    """The type with `'a` in place of the first predeclared type without arguments, if it has one."""
    return re.sub(r"(?<![`'\w])(int|char|bool|unit|string|float)\b", "'a", name, count=1)


def compared(work):
    """What came of one stream: the lines to be printed, how many certificates were written, and each answer."""
    program, (path, types, names), seed = work
    draw, wrong, answers, written = random.Random(f"{seed} {os.path.basename(path)} {names}"), [], [], 0
    names = list(dict.fromkeys([*names, with_variable(names[0])]))
    with open(path, "rb") as file:
        stream = file.read()
    if is_one_value(stream):
        wrong, answers = certificates(program, types, names, path, stream, draw)
        written = len(names)
    if stream:
        more, others = damages(program, types, names[0], stream, draw)
        wrong, answers = wrong + more, answers + others
    return wrong, written, answers


def kind_of(answer):
    """The first words of an answer."""
    found = re.search(r"(?:value \d+|line \d+): (?:certificate )?(no section|\w+)|sections left", answer[1])
    return (found[1] or found[0]) if found else answer[0].split("\n")[-2].split(" ")[0] if answer[0] else "nothing"


def done(work):
    """What came of a stream. It is wrong if an exception came of it."""
    how, what = work
    try:
        return how(what)
    except Exception:
        return [f"FAILED: {shortened(str(what[1]))}: {traceback.format_exc()}"], 0, []


def own_folder():
    """A process writes its certificates in a folder of its own."""
    os.chdir(tempfile.mkdtemp(dir="."))


def compare(program, values, seed):
    """Compares all, in as many processes as there are processors, the largest values first."""
    values.sort(key=lambda value: -os.path.getsize(value[0]))
    by_hand, written, kinds = list(streams_by_hand()), 0, {}
    rows, known = rows_of_refusals()
    wrong = [f"FAILED: {check}, {name}: there is a stream and no row of docs/FORMAT.md, or the other way" for check, name in rows ^ known]
    texts = list(stored_texts())
    wrong += [f"FAILED: {shortened(question)}: expected {answer}, says {said_of_types(question)}"
              for question, answer in texts if said_of_types(question) != answer]
    failed = len(wrong)
    print("\n".join(wrong), end="\n" if wrong else "")
    with multiprocessing.Pool(initializer=own_folder) as pool:
        works = [(said_by_hand, (program, case)) for case in by_hand] + [(compared, (program, value, seed)) for value in values]
        for wrong, count_written, answers in pool.imap_unordered(done, works):
            failed, written = failed + len(wrong), written + count_written
            for line in wrong:
                print(line, flush=True)
            for kind in map(kind_of, answers):
                kinds[kind] = kinds.get(kind, 0) + 1
    print("answers: " + ", ".join(f"{kind} {count}" for kind, count in sorted(kinds.items())))
    print(f"{len(texts)} texts of types, {len(by_hand)} streams with certificates by hand, {written} certificates by check --cert")
    print(f"{max(0, len(rows | known) + len(texts) + sum(kinds.values()) + written - failed)} passed, {failed} failed")
    return failed != 0


if __name__ == "__main__":
    sys.exit(main())

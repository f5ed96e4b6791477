"""Runs omarshal on files that OCaml wrote, in turn with OCaml's reader where it does such work, and prints tables for Markdown.

    python3 benchmark.py FOLDER [PART ..]

PART is the name of a function of WORK, at the end; with none it is each of them. Time is the median of the processor time
(user and system) of some runs of the whole process; memory is the greatest resident set. The system counts to a process what
this script held when it started it: smaller amounts than that are not distinguished. Instructions are those of user code for
each object, or each value, by valgrind's callgrind: the difference of two sizes.
"""

import collections
import filecmp
import itertools
import os
import random
import re
import resource
import shutil
import statistics
import struct
import subprocess
import sys

sys.dont_write_bytecode = True
from declared_types import DECLARED, headers, many_lists

RUNS = int(os.environ.get("RUNS", "7"))
LIMIT = int(os.environ.get("LIMIT", "20"))
if len(sys.argv) < 2:
    sys.exit("usage: benchmark.py FOLDER [PART ..]; benchmark.sh calls it")
folder, parts = sys.argv[1], sys.argv[2:]
THEIRS = ["./reader", "read"]
THEIR_COPY = ["./reader", "copy"]
SMALL_STACK = ["sh", "-c", 'ulimit -s 128; exec "$@"', ""]

# Each shape with the count of its large file, and its type over benchmark.types.
SHAPES = {
    "list": (5_000_000, "int list"),
    "string_map": (1_000_000, "int string_map"),
    "mixed": (1_000_000, "mixed"),
    "floats": (2_000_000, "float list"),
    "json": (300_000, "json"),
    "hashtbl": (500_000, "(int, string) hashtbl"),
    "graph": (1_000_000, "node array"),
    "nested": (1_000_000, "nested"),
    "syntax": (75_000, "expression list"),
    "values": (500_000, "int * string"),
}

# Files of the installed compiler: the values with these numbers of each file with this ending, joined to one stream, and
# their type over a type file of examples/.
REAL = (
    (".cmi", 0, "cmi.types", "string * types_signature"),
    (".cmi", 1, "cmi.types", "misc_crcs"),
    (".cmi", 2, "cmi.types", "cmi_format_pers_flags list"),
    (".cmx", 0, "cmx.types", "cmx_format_unit_infos"),
    (".cmxa", 0, "cmx.types", "cmx_format_library_infos"),
    (".cma", -1, "cmo.types", "cmo_format_library"),
    (".cmt", -1, "cmt.types", "cmt_format_cmt_infos"),
    (".cmti", -1, "cmt.types", "cmt_format_cmt_infos"),
)

Ran = collections.namedtuple("Ran", "seconds peak status line written")


def ours(ty, command="check", declarations="benchmark.types"):
    """The words of a command at a type."""
    return ["./omarshal", command, declarations, ty]


def inside(name):
    """The path of a file of the folder."""
    return os.path.join(folder, name)


def file_of(shape, count):
    """The path of the file of a shape, which is written where it is missing."""
    path = inside(f"{shape}_{count}")
    if not os.path.exists(path):
        written = ["sh", "-c", 'ulimit -s unlimited 2>/dev/null; exec "$@"', "", "./reader", "write", path, shape, str(count)]
        subprocess.run(written, cwd=folder, check=True)
    return path


def large(shape):
    """The name of the large file of a shape, its path and its type."""
    count, ty = SHAPES[shape]
    return f"{shape}_{count}", file_of(shape, count), ty


def words_of(path):
    """The words on 64 bits and the objects that the headers of a file's values state."""
    words = objects = 0
    with open(path, "rb") as it:
        while header := it.read(20):
            length, count, _, stated = struct.unpack(">4x4I", header)
            words, objects = words + stated, objects + count
            it.seek(length, os.SEEK_CUR)
    return words, objects


def values_in(file):
    """Where the values of a compiler's file begin and end: those that stand one after another behind a magic of 12 bytes, of
    which a .cmt may have two; or the one at the end, whose offset four bytes give."""
    found, offset = [], 0
    while len(header := os.pread(file.fileno(), 20, offset)) >= 12:
        if header[:4] == b"Caml":
            offset += 12
            if header[8:9] in (b"O", b"A"):
                offset = int.from_bytes(header[12:16], "big")
            continue
        if header[:4] != b"\x84\x95\xa6\xbe":
            break
        end = offset + 20 + int.from_bytes(header[4:8], "big")
        found.append((offset, end))
        offset = end
    return found


def joined(ending, number):
    """The path of a stream of one value of each file of the installed compiler with this ending, and how many there are."""
    path, count = inside(f"{ending[1:]}_{number}"), 0
    library = subprocess.run(["ocamlc", "-where"], stdout=subprocess.PIPE, check=True).stdout.decode().strip()
    with open(path, "wb") as out:
        for below, _, names in sorted(os.walk(library)):
            for name in sorted(it for it in names if it.endswith(ending)):
                with open(os.path.join(below, name), "rb") as file:
                    if values := values_in(file):
                        start, end = values[number]
                        os.sendfile(out.fileno(), file.fileno(), start, end - start)
                        count += 1
    return path, count


def limited():
    """Ends the process that is started after so many seconds of processor time."""
    resource.setrlimit(resource.RLIMIT_CPU, (LIMIT, LIMIT))


def run(words, name, said="said"):
    """One run on an input: its processor seconds, its greatest memory in MB, its status, how its first line begins, and how many
    bytes it wrote."""
    with open(name, "rb") as given, open(inside(said), "wb") as out:
        started = subprocess.Popen(words, stdin=given, stdout=out, stderr=out, cwd=folder, preexec_fn=limited)
        _, status, used = os.wait4(started.pid, 0)
        started.returncode = os.waitstatus_to_exitcode(status)
    with open(inside(said), "rb") as it:
        line = it.readline(32).decode("latin-1").strip().replace("|", "\\|")
    line += ".." if len(line) > 30 else ""
    return Ran(used.ru_utime + used.ru_stime, used.ru_maxrss / 1024, started.returncode, line, os.path.getsize(inside(said)))


def in_turn(*runs):
    """Several runs, one after another and so some times: of each the median seconds and the greatest memory."""
    done = zip(*([run(*it) for it in runs] for _ in range(RUNS)))
    return [
        them[-1]._replace(seconds=statistics.median(it.seconds for it in them), peak=max(it.peak for it in them)) for them in done
    ]


def instructions(words, name):
    """The instructions of user code of one run, by callgrind."""
    traced = ["valgrind", "--tool=callgrind", f"--callgrind-out-file={inside('traced')}", *words]
    with open(name, "rb") as given:
        traces = subprocess.run(traced, stdin=given, stdout=subprocess.DEVNULL, stderr=subprocess.PIPE, cwd=folder, check=False)
    return int(re.search(r"Collected : (\d+)", traces.stderr.decode()).group(1))


def between(shape, number, commands):
    """The instructions of each command, which gives its words for a file, between two sizes of a shape, for each of a number that
    a function gives of a file."""
    if not shutil.which("valgrind"):
        return ["-"] * len(commands)
    few, many = (file_of(shape, SHAPES[shape][0] // part) for part in (100, 50))
    more = number(many) - number(few)
    return [f"{(instructions(words(many), many) - instructions(words(few), few)) / more:.0f}" for words in commands]


def an_object(shape, *commands):
    """The instructions for each object of a shape, of each command."""
    return between(shape, lambda path: words_of(path)[1], commands)


def a_value(shape, *commands):
    """The instructions for each value of a shape, of each command."""
    return between(shape, lambda path: int(path.rpartition("_")[2]), commands)


FLOOR = run(["true"], os.devnull).peak + 1.5


def memory(ran):
    """The text of the memory of a run in MB."""
    return f"{ran.peak:.0f}" if ran.peak > FLOOR else f"below {FLOOR:.0f}"


def seconds(ran):
    """The text of the seconds of a run."""
    return f"{ran.seconds:.3f}"


def ratio(first, second):
    """How many times as long the first of two runs took."""
    return f"{first.seconds / second.seconds:.2f}"


def beside(mine, theirs):
    """The cells of two runs side by side."""
    share = f"{mine.peak / theirs.peak:.2f}" if theirs.peak > FLOOR else ""
    return seconds(mine), seconds(theirs), ratio(mine, theirs), memory(mine), memory(theirs), share


BESIDE = "omarshal s", "OCaml s", "ratio", "omarshal MB", "OCaml MB", "ratio"


def said(ran):
    """The status of a run, and how its first line begins, where that is text."""
    return f"{ran.status}: {ran.line if ran.line.isascii() and ran.line.isprintable() and ran.line else f'{ran.written} bytes'}"


def line(*cells):
    """A line of a table."""
    print(f"| {' | '.join(str(it) for it in cells)} |", flush=True)


def table(text, *columns):
    """The head of a table."""
    print(f"\n{text}\n")
    line(*columns)
    print("|---" * len(columns) + "|")


def alone(text, rows):
    """A table of runs that are not compared."""
    table(text, "what", "omarshal s", "omarshal MB", "status and line")
    for what, words, path in rows:
        (ran,) = in_turn((words, path))
        line(what, seconds(ran), memory(ran), said(ran))


def compared(text, command, types):
    """A table of a command on the large files at types, beside OCaml's reader."""
    table(text, "file", *BESIDE, "instructions an object", "OCaml's")
    for shape, ty in types.items():
        name, path, _ = large(shape)
        words = ours(ty, command)
        mine, theirs = in_turn((words, path), ([*THEIRS, path], path))
        assert mine.status == (command == "show"), said(mine)
        line(name, *beside(mine, theirs), *an_object(shape, lambda _: words, lambda it: [*THEIRS, it]))


def inputs():
    """The large files."""
    table("The large files:", "file", "bytes", "words", "objects", "type")
    for shape in SHAPES:
        name, path, ty = large(shape)
        line(name, os.path.getsize(path), *words_of(path), f"`{ty}`")


def reading():
    """`show` at the type `int`: it reads a value into a heap, and the check of a block ends at its root."""
    compared("`show` at `int`, which reads and ends at the root:", "show", {it: "int" for it in SHAPES})


def checking():
    """At the types of the values, where each object is checked."""
    compared("`check` at the types of the values:", "check", {it: ty for it, (_, ty) in SHAPES.items()})


def real():
    """Files that the benchmark's makers did not choose: all that the installed compiler brings."""
    text = "One value of each file of the installed compiler, joined by kind, in turn with OCaml's reader:"
    table(text, "values of", "type", "values", "bytes", *BESIDE, "yes")
    for ending, number, declarations, ty in REAL:
        path, count = joined(ending, number)
        if not count:
            continue
        words = ours(ty, declarations=declarations)
        theirs, mine = in_turn(([*THEIRS, path], path), (words, path))
        with open(inside("said"), "rb") as it:
            well = sum(text == b"yes\n" for text in it)
        which = "the last" if number < 0 else f"number {number + 1}"
        line(f"{ending}, {which}", f"`{ty}`", count, os.path.getsize(path), *beside(mine, theirs), well)


def changed(shape):
    """A copy of the large file of a shape whose last byte, a constant, is another constant."""
    path = inside(f"{shape}_changed")
    shutil.copy(large(shape)[1], path)
    with open(path, "r+b") as it:
        it.seek(-1, os.SEEK_END)
        it.write(b"\x41")
    return path


def missing():
    """What the pass over the bytes does not answer with yes, beside OCaml's reading of the same file."""
    name, syntax, ty = large("syntax")
    rows = [
        (f"`trees` of {name}", ours(ty, "trees"), syntax),
        ("`get` of its part `.0`", [*ours(ty, "get"), ".0"], syntax),
    ]
    for shape in ("syntax", "mixed", "json", "list"):
        rows.append((f"`check` of {large(shape)[0]}, its last byte changed", ours(SHAPES[shape][1]), changed(shape)))
    rows += [
        ("`check` of list_5000000 at `bool list`", ours("bool list"), large("list")[1]),
        ("`check` of strays_75000, trees and two integers", ours(ty), file_of("strays", 75_000)),
        ("`check` of clashes_200000 at `int ref * char ref`", ours("int ref * char ref"), file_of("clashes", 200_000)),
        ("`check` of twice_1000000, one set at two types", ours("int set * other"), file_of("twice", 1_000_000)),
    ]
    table("Where the pass does not answer:", "what", *BESIDE, "status and line")
    for what, words, path in rows:
        mine, theirs = in_turn((words, path), ([*THEIRS, path], path))
        line(what, *beside(mine, theirs), said(mine))


def small():
    """Many small values, beside an OCaml program that does the same: reads each, prints it as text or its first part, or copies it."""
    name, path, ty = large("values")
    table(f"Each value of {name}:", "what", *BESIDE, "instructions a value", "OCaml's")
    rows = (
        (f"`check` at `{ty}`, all `yes`", ours(ty), "read"),
        ("`check` at `int * int`, all `no`", ours("int * int"), "read"),
        ("`edit` with an empty script", [*ours(ty, "edit"), "/dev/null"], "copy"),
        ("`show`", ours(ty, "show"), "show"),
        ("`get` of the part `.0`", [*ours(ty, "get"), ".0"], "part"),
        ("`show` at `int`, all `no`", ours("int", "show"), "read"),
    )
    for what, words, theirs in rows:
        done = in_turn((words, path), (["./reader", theirs, path], path))
        line(what, *beside(*done), *a_value("values", lambda _, it=words: it, lambda it, of=theirs: ["./reader", of, it]))


def growing():
    """Lists of growing length, to 10^8 words."""
    columns = "OCaml s", "read s", "ratio", "check s", "ratio", "OCaml MB", "read MB", "check MB"
    table("Reading (`show` at `int`) and `check` at `int list`:", "file", "words", *columns)
    for count in (33_000, 330_000, 3_300_000, 33_000_000):
        path = file_of("list", count)
        commands = [*THEIRS, path], ours("int", "show"), ours("int list")
        done = theirs, read, checked = in_turn(*((words, path) for words in commands))
        times = seconds(theirs), seconds(read), ratio(read, theirs), seconds(checked), ratio(checked, theirs)
        line(f"list_{count}", words_of(path)[0], *times, *map(memory, done))


def declared_in(path, declared):
    """The path of a file with declarations."""
    with open(path, "w", encoding="ascii") as out:
        out.writelines(f"{it}\n" for it in declared)
    return path


def hostile():
    """Sharing, objects at many types, and depth."""
    declared, record = many_lists(1_000)
    many, array = ours(record, declarations=declared_in(inside("many.types"), declared)), "int ref array"
    rows = [("`check` of 60 blocks, each twice in the one before", ours("doubling"), file_of("doubling", 60))]
    for count in (10, 100, 1_000):
        rows.append((f"`check` of one list of {count} blocks, at 1,000 types each", many, file_of("shared", count)))
    rows.append(("`show` of an array that names one reference 10^6 times", ours(array, "show"), file_of("references", 1_000_000)))
    for command, *last in (["check"], ["show"], ["edit", "/dev/null"]):
        for shape in ("nested", "mixed"):
            name, path, ty = large(shape)
            rows.append((f"`{command}` of {name}, with a stack of 128 kB", [*SMALL_STACK, *ours(ty, command), *last], path))
    alone("Sharing, objects at many types, and depth:", rows)


def showing():
    """As text and as objects, beside reading."""
    columns = "read s", "show s", "ratio", "its bytes", "its MB", "dump s", "ratio", "its bytes", "its MB"
    table("`show` and `dump`, in turn with reading (`show` at `int`):", "file", *columns)
    for shape in SHAPES:
        name, path, ty = large(shape)
        commands = ours("int", "show"), ours(ty, "show"), ["./omarshal", "dump"]
        read, *texts = in_turn(*((words, path) for words in commands))
        line(name, seconds(read), *(it for ran in texts for it in (seconds(ran), ratio(ran, read), ran.written, memory(ran))))


def writes(words, given, path):
    """Returns whether a run writes the bytes of a file."""
    run(words, given)
    return "the same" if filecmp.cmp(path, inside("said"), shallow=False) else "DIFFER"


# What a script does, the type, shape and count of its input, and its text in parts.
SCRIPTS = (
    ("100,000 values, the last one set", "int list", "cells", 100_000, ["99999 set .0 = 7"]),
    ("40,000 values, each set", "int list", "cells", 40_000, (f"{k} set .0 = 7\n" for k in range(40_000))),
    ("one value, set by 100,000 lines", "int list", "cells", 1, (f"0 set .0 = {k}\n" for k in range(100_000))),
    ("100,000 values, the last a copy of the first", "int list", "cells", 100_000, ["99999 graft . = 0 ."]),
    ("40,000 values, the last a copy of each in turn", "int list", "cells", 40_000,
     (f"39999 graft . = {k} .\n" for k in range(39_999))),
    ("20,000 values, in each a part of the one before", "int list", "cells", 20_000,
     (f"{k} graft .0 = {k - 1} .0\n" for k in range(1, 20_000))),
    ("`Again(Again(..))`, 1,000,000 deep", "nested", "nested", 1,
     itertools.chain(["0 set . = "], ("Again(" for _ in range(1_000_000)), ["Nothing"], (")" for _ in range(1_000_000)))),
    ("a list of 1,000,000 integers", "int list", "cells", 1,
     itertools.chain(["0 set . = "], (f"::({k}, " for k in range(1_000_000)), ["[]"], (")" for _ in range(1_000_000)))),
)


def scripts():
    """What each script does, the words that take it, and its input."""
    for what, ty, shape, count, parts in SCRIPTS:
        path = inside("script")
        with open(path, "w", encoding="ascii") as out:
            out.writelines(parts)
        yield what, [*SMALL_STACK, *ours(ty, "edit"), path], file_of(shape, count)


def editing():
    """`edit` with an empty script, beside OCaml's reading and writing. It writes the input, byte for byte."""
    table("With an empty script, in turn with OCaml's reading and writing:", "file", *BESIDE, "the bytes")
    for shape in SHAPES:
        name, path, ty = large(shape)
        words = [*ours(ty, "edit"), "/dev/null"]
        mine, theirs = in_turn((words, path), ([*THEIR_COPY, path], path))
        line(name, *beside(mine, theirs), writes(words, path, path))
    alone("Scripts and literals, with a stack of 128 kB:", scripts())


def building():
    """`build` of the output of `show`, and of the same text with one more blank at its end, which `show` never prints."""
    columns = "text bytes", "show s", "build s", "of showing", "show MB", "build MB", "of the text", "the bytes"
    table("`build` of the output of `show`, in turn with `show`:", "file", *columns, "with a blank s", "MB")
    text, other = inside("text"), inside("other")
    for shape, count in (("list", 1_000_000), ("string_map", 1_000_000), ("mixed", 1_000_000), ("list", 10_000_000)):
        path, ty = file_of(shape, count), SHAPES[shape][1]
        show, build = ours(ty, "show"), ours(ty, "build")
        run(show, path, "text")
        shutil.copy(text, other)
        with open(other, "r+b") as it:
            it.seek(-1, os.SEEK_END)
            it.write(b" \n")
        shown, built, read = in_turn((show, path), (build, text), (build, other))
        size = os.path.getsize(text)
        line(
            f"{shape}_{count}", size, seconds(shown), seconds(built), ratio(built, shown), memory(shown), memory(built),
            f"{built.peak * 2**20 / size:.1f}", writes(build, text, path), seconds(read), memory(read),
        )


def certified(path, ty):
    """The words that verify a file by its certificate, which is written."""
    run([*ours(ty), "--cert"], path, "cert")
    return [*ours(ty, "verify"), "cert"]


def certificates():
    """Certificates that are written and verified, beside `check`."""
    columns = "bytes of CERT", "check s", "--cert s", "of check", "verify s", "of check", "check MB", "--cert MB", "verify MB"
    table("Certificates, in turn with `check`:", "file", *columns, "instructions an object", "of --cert", "of verify")
    for shape, count in (("list", 1_000_000), ("string_map", 1_000_000), ("mixed", 1_000_000), ("values", 200_000)):
        path, ty = file_of(shape, count), SHAPES[shape][1]
        commands = lambda _: ours(ty), lambda _: [*ours(ty), "--cert"], lambda it: certified(it, ty)
        per_object = an_object(shape, *commands)
        done = checked, made, verified = in_turn(*((words(path), path) for words in commands))
        assert verified.status == 0, said(verified)
        line(
            f"{shape}_{count}", made.written, seconds(checked), seconds(made), ratio(made, checked), seconds(verified),
            ratio(verified, checked), *map(memory, done), *per_object,
        )
    with open(inside("no_cert"), "wb") as it:
        it.truncate(10**8)
    words = [*ours("int list", "verify"), "no_cert"]
    alone("A certificate that is none:", [("`verify`, by one line of 10^8 bytes", words, file_of("list", 20_000))])


def trees():
    """Sets and maps as search trees, beside `check` and OCaml's reading."""
    columns = "check s", "trees s", "of check", "of OCaml", "trees MB", "OCaml MB"
    table("`trees`, in turn with `check` and OCaml's reading:", "file", "type", *columns, "status and line")
    for shape, count, ty in (
        ("set", 1_000_000, "int set"),
        ("string_map", 1_000_000, "int string_map"),
        ("sets", 200_000, "int set list"),
        ("twice", 1_000_000, "int set * other"),
    ):
        path = file_of(shape, count)
        checked, judged, theirs = in_turn((ours(ty), path), (ours(ty, "trees"), path), ([*THEIRS, path], path))
        times = seconds(checked), seconds(judged), ratio(judged, checked), ratio(judged, theirs)
        line(f"{shape}_{count}", f"`{ty}`", *times, memory(judged), memory(theirs), said(judged))


def headers_file(count, words, fields):
    """The path of a file of so many headers, each of a value of so many words that begins with a block of so many fields."""
    path = inside(f"headers_{count}_{words}")
    with open(path, "wb") as out:
        out.write(headers(count, words, fields))
    return path


def places():
    """`scan` of bytes that are hard on it, and bytes that are passed over."""
    drawn, behind = random.Random(1), inside("behind")
    with open(inside("random"), "wb") as out:
        for _ in range(160):
            out.write(drawn.randbytes(65_536))
    with open(behind, "wb") as out, open(file_of("list", 1_000_000), "rb") as it:
        out.seek(16_000_000)
        shutil.copyfileobj(it, out)
    scan, skip = ["./omarshal", "scan"], ["--skip", "16000000"]
    alone("Where values stand:", (
        ("`scan` of 10 MB of random bytes", scan, inside("random")),
        ("of 5,000 headers, each read for 16,448 words", scan, headers_file(5_000, 0x4040, 400)),
        ("of 10,000 such headers", scan, headers_file(10_000, 0x4040, 400)),
        ("of 50 headers, each read for 4,210,752 words", scan, headers_file(50, 0x404040, 4_000_000)),
        ("`check` of list_1000000 behind 16,000,000 bytes", [*ours("int list"), *skip], behind),
        ("`edit` of the same", [*ours("int list", "edit"), "/dev/null", *skip], behind),
    ))


def types():
    """Declarations and types alone: no value is read."""
    table("Declarations and types without a value:", "declarations", "N", "s", "s at 2 N", "growth", "MB at 2 N", "status")
    path = inside("declared.types")
    for name, make, size in DECLARED:
        done = []
        for count in (size, 2 * size):
            declared, ty = make(count)
            done += in_turn((ours(ty, declarations=declared_in(path, declared)), os.devnull))
        once, twice = done
        line(name, size, seconds(once), seconds(twice), ratio(twice, once), memory(twice), twice.status)


WORK = (
    inputs, reading, checking, real, missing, small, growing, hostile, showing, editing, building, certificates, trees, places, types,
)
PARTS = {it.__name__: it for it in WORK}
if not set(parts) <= set(PARTS):
    sys.exit(f"the parts are {', '.join(PARTS)}")
for part in parts or PARTS:
    PARTS[part]()

#!/usr/bin/env python3
"""Finds the inputs on which the time or the memory of omarshal grows faster than the input and the output:

    tools/find_growth.py [--only GENERATOR] [--limit SECONDS] [--all] [PROGRAM]

Each generator makes inputs of a size: values, declarations, types, paths, scripts, certificates, or other bytes. For each generator
and each way of calling omarshal, the script measures the program at a size N and at 2 N. It doubles N until one run at N takes
FLOOR seconds. The time and the memory of a run without input are subtracted, so that the start of the process does not hide growth.
The *size* of a run is the number of bytes of its arguments,
of the files that it reads, and of its output. A pair of runs is listed if the time grows by more than BOUND times the growth of the
size. A pair is also listed if the memory does so, or if a run takes more than the limit.

Times are processor time of the program, user and system, the least of RUNS runs. Other work on the machine makes some runs slow, so
a pair that would be listed is measured again, and the least of all runs counts. Some inputs take another way through the program
from a certain size on, for example from the size of a buffer on. So a pair is listed only if time or memory also grows too fast from
2 N to 4 N, unless the generator makes no inputs of size 4 N.

Where a time is a number of values times a number of types, say, the generator begins with a size at which this product outweighs
the rest.

PROGRAM is by default the proved program if it is built, and otherwise the unproved one. --only takes a pattern of names of generators
such as 'tags*'. --limit is the limit of one run in seconds of processor time, by default 20. --all prints each measured pair.

KNOWN lists the growth that is expected, with its cause. The last line of the output counts the pairs. The status is 1 if a pair is
listed that KNOWN does not have, and 2 if a run ends with a status that its generator does not expect.
"""

import argparse
import collections
import fnmatch
import functools
import json
import math
import multiprocessing
import os
import random
import resource
import shutil
import signal
import struct
import subprocess
import sys
import tempfile

sys.dont_write_bytecode = True
from declared_types import DECLARED, headers, many_lists
from value_has_type import hash_of

HERE = os.path.dirname(os.path.realpath(__file__))
PROGRAMS = [os.path.join(HERE, "..", *path.split("/")) for path in ("crates/omarshal/out/omarshal", "out/omarshal-unproved")]
ENVIRONMENT = {**os.environ}
# As tools/test.sh sets it for an unproved program. What the program gives back is free at once, as in the proved one.
CHECKS = "allocator_may_return_null=1:detect_leaks=0:quarantine_size_mb=0:thread_local_quarantine_size_kb=0"
ENVIRONMENT.setdefault("ASAN_OPTIONS", CHECKS)
BOUND = 1.3
FLOOR = 0.05
RUNS = 3
# Megabytes below which memory is not compared.
LEAST_MEMORY = 16
MOST_BYTES = 1 << 28

# A pattern of generators, a pattern of ways, what grows, and the reason.
Known = collections.namedtuple("Known", "generators ways grows reason")
KNOWN = [
    Known("unsound_set_of_long_strings", "trees*", "time", "each node compares the bytes of its string: trees/src/search_trees/element_order.rt"),
    Known("sets_of_long_strings", "trees*", "time", "each set compares the bytes of its strings: trees/src/search_trees/element_order.rt"),
    Known("values_at_many_types", "trees*", "time", "each value searches all types for trees: trees/src/value_verdict/verdict_search.rt"),
    Known("constants", "build*", "time", "each constant is compared with all names of its type: cmd_build/src/guess/guess_start.rt"),
    Known("tags_with*", "build*", "time", "each name is compared with all tags of its type: text_literal/src/parser/named.rt"),
    Known("list_at_many_types", "*", "time memory", "each object is visited at each of its types"),
    Known("types_all_extended", "*", "time memory", "TYPE reaches all variants, whose tags are as many as the square of N"),
    Known("types_extended_with", "*", "time memory", "the scope rules collect the tags of each variant, which are as many as the square of N"),
    Known("parameters", "*", "time", "each variable is compared with all parameters: types_table/src/store/instance.rt"),
    Known("lines_for_large_value", "edit*", "time", "each line checks the whole value"),
    Known("copies_of_large_value", "edit*", "time memory", "each line copies a value as large as the script"),
]

Ran = collections.namedtuple("Ran", "seconds peak status written message")


# Values in Marshal format.


class Value:
    """Writes a value to a file, token by token. It counts the objects and words, and writes the header last."""

    def __init__(self, out):
        self.out, self.start = out, out.seek(0, os.SEEK_CUR)
        self.data = bytearray(20)
        self.objects = self.words32 = self.words64 = 0

    def object(self, words32, words64, data):
        self.objects += 1
        self.words32 += 1 + words32
        self.words64 += 1 + words64
        self.data += data

    def integer(self, number):
        if 0 <= number < 64:
            self.data.append(0x40 + number)
        else:
            code = next(code for code in range(4) if -(1 << (8 << code) - 1) <= number < 1 << (8 << code) - 1)
            self.data += bytes([code]) + number.to_bytes(1 << code, "big", signed=True)

    def block(self, tag, size):
        if size == 0:
            self.data.append(0x80 + tag)
        elif tag < 16 and size < 8:
            self.object(size, size, bytes([0x80 + tag + (size << 4)]))
        else:
            header = (size << 10) + tag
            self.object(size, size, struct.pack(">BI", 8, header) if size < 1 << 22 else struct.pack(">BQ", 19, header))

    def string(self, text):
        size = len(text)
        code = bytes([0x20 + size]) if size < 32 else struct.pack(">BB", 9, size) if size < 256 else struct.pack(">BI", 10, size)
        self.object(size // 4 + 1, size // 8 + 1, code)
        self.data += text

    def double(self, number):
        self.object(2, 1, struct.pack("<Bd", 12, number))

    def doubles(self, size, numbers):
        self.object(2 * size, size, struct.pack(">BB", 14, size) if size < 256 else struct.pack(">BI", 7, size))
        self.data += numbers

    def int64(self, number):
        self.object(3, 2, b"\x19_j\0" + number.to_bytes(8, "big", signed=True))

    def refer(self, number):
        """A reference to the object with a number, counted from 0."""
        distance = self.objects - number
        code = next(code for code in range(3) if distance < 1 << (8 << code))
        self.data += bytes([4 + code]) + distance.to_bytes(1 << code, "big")

    def times(self, count, body):
        """The tokens of body(k) so many times. The number k repeats after a thousand, and the bytes of a thousand are copied."""
        for many, part in ((count // 1_000, 1_000), (1, count % 1_000)):
            before = len(self.data), self.objects, self.words32, self.words64
            for k in range(part if many else 0):
                body(k)
            grown = self.data[before[0]:]
            for _ in range(many - 1):
                self.data += grown
                if len(self.data) > 1 << 20:
                    self.out.write(self.data)
                    self.data.clear()
            self.objects += max(0, many - 1) * (self.objects - before[1])
            self.words32 += max(0, many - 1) * (self.words32 - before[2])
            self.words64 += max(0, many - 1) * (self.words64 - before[3])

    def close(self):
        self.out.write(self.data)
        self.data.clear()
        end = self.out.seek(0, os.SEEK_CUR)
        self.out.seek(self.start)
        self.out.write(struct.pack(">5I", 0x8495A6BE, end - self.start - 20, self.objects, self.words32, self.words64))
        self.out.seek(end)


class Case:
    """The input of one size. `write` writes the value or the other bytes of the input."""

    def __init__(self, write, type="int", types=(), path=".", values=1, **other):
        self.write, self.type, self.types, self.path, self.values = write, type, types, path, values
        self.script, self.certificate, self.text = (other.get(it) for it in ("script", "certificate", "text"))
        self.count, self.before = other.get("count", 0), other.get("before", 100)
        self.room = self.size = None

    def file(self, name, write):
        """The path of a file of the case, which is written where it is missing."""
        path = os.path.join(self.room, name)
        if not os.path.exists(path):
            with open(path, "wb") as out:
                write(out)
        return path

    def lines(self, name, texts):
        return self.file(name, lambda out: out.writelines(text.encode("ascii") + b"\n" for text in texts))

    def value(self):
        return self.file("value", self.write)

    def twice(self):
        """The path of a file with the value two times."""
        return self.file("twice", lambda out: (self.write(out), self.write(out)))

    def output(self, name, words, given, change=lambda text: text):
        """The path of the output of a run."""

        def write(out):
            ran = run(words, given, self.room)
            if ran.status not in (0, 1):
                raise Unexpected(f"{' '.join(words[1:])[:60]}: status {ran.status}, {ran.message}")
            with open(os.path.join(self.room, "said"), "rb") as said:
                for line in said:
                    out.write(change(line))

        return self.file(name, write)


def one(body):
    """The writer of a value, which `body` writes token by token."""

    def write(out):
        value = Value(out)
        body(value)
        value.close()

    return write


def many(count, body):
    """The writer of a stream of values: those of body(value, k)."""

    def write(out):
        for k in range(count):
            value = Value(out)
            body(value, k)
            value.close()

    return write


# Ways of calling omarshal.

# A variant is a script of `edit` or a text of `build`.
Way = collections.namedtuple("Way", "command options variant", defaults=((), ""))
SKIP = ("--skip", "--limit", "--lines")
WAYS = [
    Way("check"),
    Way("check", ("--cert",)),
    Way("check", ("--only", *SKIP)),
    Way("show"),
    Way("show", ("--pretty",)),
    Way("show", ("--decimal",)),
    Way("show", ("--only", *SKIP)),
    Way("get"),
    Way("get", ("--pretty", "--decimal")),
    Way("get", ("--only", *SKIP)),
    Way("edit"),
    Way("edit", (), "a line"),
    Way("edit", ("--decimal", *SKIP), "a line"),
    Way("edit", ("--compat32",)),
    Way("dump"),
    Way("dump", ("--only", "--skip", "--limit")),
    Way("same"),
    Way("same", ("--skip", "--limit")),
    Way("scan"),
    Way("scan", ("--limit",)),
    Way("trees"),
    Way("trees", SKIP),
    Way("verify"),
    Way("verify", SKIP),
    Way("build"),
    Way("build", ("--lines",), "with a blank"),
    Way("build", ("--decimal",)),
]
GEN = Way("gen")


def name_of(way):
    return " ".join([way.command, *way.options]) + (f" ({way.variant})" if way.variant else "")


def script_of(case, way):
    if case.script is not None:
        return case.lines("script", case.script)
    return case.lines("line", ["0 link . = ."]) if way.variant else os.devnull


def text_for(case, way, program, types):
    """The path of the text that `build` reads: the output of `show`, and for a variant with a blank that `show` does not print."""
    if case.text is not None:
        return case.lines("text", case.text)
    decimal = [it for it in way.options if it == "--decimal"]
    shown = case.output("shown" + "".join(decimal), [program, "show", *decimal, types, case.type], case.value())
    if not way.variant:
        return shown
    return case.output("blank", [program, "show", types, case.type], case.value(), lambda line: line.replace(b"\n", b" \n"))


def call_of(case, way, program):
    """The words of a run and the path of its input."""
    command = way.command
    if command == "gen":
        return [program, "gen", "7", str(case.count), case.type], os.devnull
    words, given = [program, command], case.value()
    if command not in ("dump", "same", "scan"):
        types = case.lines("types", case.types) if case.types else os.devnull
        words += [types, case.type]
    if command == "same":
        given = case.twice()
    elif command == "get":
        words.append(case.path)
    elif command == "edit":
        words.append(script_of(case, way))
    elif command == "build":
        given = text_for(case, way, program, types)
    elif command == "verify" and case.certificate is not None:
        words.append(case.lines("cert", case.certificate))
    elif command == "verify":
        words.append(case.output("cert", [program, "check", "--cert", *words[2:]], given))
    for option in way.options:
        words.append(option)
        if option == "--limit":
            words.append("1099511627776")
        elif option == "--only":
            words.append(str(case.values - 1))
        elif option == "--skip":
            before, given = given, os.path.join(case.room, f"skip-{os.path.basename(given)}")
            if not os.path.exists(given):
                with open(given, "wb") as out, open(before, "rb") as value:
                    out.write(bytes(case.before))
                    shutil.copyfileobj(value, out)
            words.append(str(case.before))
    return words, given


# Runs.


class Unexpected(Exception):
    """A run ended as its generator does not expect."""


limit = 20
# A run without input.
idle = Ran(0, 0, 0, 0, "")
# The line to the process that makes the runs.
server = None


def limited():
    """Ends the process that is started after so many seconds of processor time."""
    resource.setrlimit(resource.RLIMIT_CPU, (limit, limit))


def run_once(words, given, room):
    """One run: its processor seconds, infinite if the limit ended it, its memory peak in MB, its status, the size of its output, and
    its message."""
    said = os.path.join(room, "said")
    with open(given, "rb") as read, open(said, "wb") as out, open(said + "-errors", "wb") as errors:
        started = subprocess.Popen(words, stdin=read, stdout=out, stderr=errors, preexec_fn=limited, env=ENVIRONMENT)
        _, status, used = os.wait4(started.pid, 0)
        started.returncode = os.waitstatus_to_exitcode(status)
    with open(said + "-errors", "rb") as it:
        message = it.readline(100).decode("latin-1").strip()
    over = started.returncode in (-signal.SIGXCPU, -signal.SIGKILL)
    seconds = math.inf if over else used.ru_utime + used.ru_stime
    return Ran(seconds, used.ru_maxrss / 1024, started.returncode, os.path.getsize(said), message)


def serve(line):
    """Makes the runs that are asked for on a line, until the line is closed. The system counts to a process the memory that its
    parent held, so the parent of the measured programs is a process that makes no inputs."""
    while True:
        try:
            line.send(run_once(*line.recv()))
        except EOFError:
            os._exit(0)


def run(words, given, room):
    """One run, by the process that serves."""
    server.send((words, given, room))
    return server.recv()


def bytes_of(words, given):
    """The bytes of the arguments and of the files that a run reads."""
    return os.path.getsize(given) + sum(os.path.getsize(it) if it.startswith("/") else len(it) for it in words[1:])


# One pair of runs: its size at N, seconds, memory and bytes at N and at 2 N.
Pair = collections.namedtuple("Pair", "count seconds peaks sizes over")


def growth(pair):
    """By how much the time and the memory grow, each as a share of the growth of the size."""
    size = max(1, pair.sizes[1] / pair.sizes[0])
    return [it[1] / it[0] / size if it[0] else 1 for it in (pair.seconds, pair.peaks)]


def found(pair):
    """What grows too fast."""
    if pair.over:
        return ["time"]
    time, memory = growth(pair)
    large = pair.peaks[1] > LEAST_MEMORY
    return ["time"] * (time > BOUND and pair.seconds[1] >= FLOOR) + ["memory"] * (memory > BOUND and large)


class Generator:
    """A family of inputs. `make` makes the case of a size, which begins at `first`, and is at most `most` for the greater run."""

    def __init__(self, name, make, first, most, ways, statuses):
        self.name, self.make, self.first, self.most, self.ways, self.statuses = name, make, first, most, ways, statuses
        self.cases = {}

    def case(self, count, room):
        if count not in self.cases:
            case = self.cases[count] = self.make(count)
            case.room = os.path.join(room, str(count))
            os.mkdir(case.room)
        return self.cases[count]

    def run(self, count, way, program, room):
        """The seconds, memory and bytes of one run. The seconds of a run without input are subtracted.

        The memory of a run is at least the memory of the process that starts the run, so small peaks are not seen."""
        case = self.case(count, room)
        words, given = call_of(case, way, program)
        ran = run(words, given, case.room)
        if ran.seconds < math.inf and ran.status not in self.statuses:
            raise Unexpected(f"{self.name}, {name_of(way)}, size {count}: status {ran.status}, {ran.message}")
        size = case.count + bytes_of(words, given) + ran.written
        return max(0.001, ran.seconds - idle.seconds), ran.peak, size

    def measured(self, count, way, program, room, first=()):
        """Measures a way at N, where there may be a first run, and at 2 N, and again if something grows too fast."""
        runs = [*first], []
        for turn in (1, 2):
            for _ in range(RUNS):
                for number, many in enumerate(runs):
                    if len(many) < turn * RUNS and math.inf not in (it[0] for it in many):
                        many.append(self.run(count << number, way, program, room))
            seconds, peaks, sizes = zip(*([min(it) for it in zip(*many)] for many in runs))
            pair = Pair(count, seconds, peaks, sizes, seconds[1] == math.inf)
            if pair.over or not found(pair):
                break
        return pair

    def pair(self, way, program, room):
        """Measures a way at the first size N that takes long enough, and at 2 N. Returns the pair and what grows too fast."""
        count = self.first
        while True:
            done = self.run(count, way, program, room)
            if done[0] >= FLOOR or 4 * count > self.most or done[2] > MOST_BYTES:
                break
            count *= 4 if done[0] < FLOOR / 8 and 8 * count <= self.most else 2
        if done[0] == math.inf and count > self.first:
            count, done = count // 2, None
        pair = self.measured(count, way, program, room, [done] if done else [])
        grows = found(pair)
        if grows and not pair.over and 4 * count <= self.most:
            pair = self.measured(2 * count, way, program, room)
            grows = [it for it in found(pair) if it in grows or pair.over]
        return pair, grows


# The generators.

GENERATORS = []


def generator(first=1_000, most=1 << 24, ways=tuple(WAYS), statuses=(0,)):
    """Makes a generator of a function from a size to a case."""

    def declared(make):
        GENERATORS.append(Generator(make.__name__, make, first, most, ways, statuses))
        return make

    return declared


def named(commands):
    """The ways of some commands."""
    return tuple(way for way in WAYS if way.command in commands.split())


@generator()
def integers(n):
    """A list of small integers."""

    def write(it):
        it.times(n, lambda k: (it.block(0, 2), it.integer(k)))
        it.integer(0)

    return Case(one(write), "int list", path=".0")


@generator(statuses=(0, 11))
def large_integers(n):
    """An array of integers of 64 bits."""
    return Case(one(lambda it: (it.block(0, n), it.times(n, lambda k: it.integer(k << 40)))), "int array", path=".7")


@generator()
def rows(n):
    """An array of arrays of ten integers."""

    def row(it, k):
        it.block(0, 10)
        for j in range(10):
            it.integer(k + j)

    return Case(one(lambda it: (it.block(0, n), it.times(n, lambda k: row(it, k)))), "int array array", path=".7")


@generator()
def empty_arrays(n):
    """An array of empty arrays."""
    return Case(one(lambda it: (it.block(0, n), it.times(n, lambda k: it.block(0, 0)))), "int array array", path=".7")


@generator()
def nested(n):
    """Blocks of one field, each inside another."""
    types = ["type t = Nothing | Again of t"]
    return Case(one(lambda it: (it.times(n, lambda k: it.block(0, 1)), it.integer(0))), "t", types=types, path=".0")


@generator()
def nested_first(n):
    """Blocks of two fields, each inside the first field of another."""
    types = ["type t = Stop | Left of t * int"]

    def write(it):
        it.times(n, lambda k: it.block(0, 2))
        it.integer(0)
        it.times(n, it.integer)

    return Case(one(write), "t", types=types, path=".0")


@generator()
def shared_twice(n):
    """Blocks that have the next block in each of their two fields."""

    def write(it):
        it.times(n, lambda k: it.block(0, 2))
        it.integer(0)
        it.integer(0)
        for k in range(n - 1, 0, -1):
            it.refer(k)

    return Case(one(write), "t", types=["type t = End | Both of t * t"], path=".0")


@generator()
def one_object(n):
    """An array that refers to one object only."""

    def write(it):
        it.block(0, n)
        it.block(0, 1)
        it.integer(7)
        it.times(n - 1, lambda k: it.refer(1))

    return Case(one(write), "int ref array", path=".7")


@generator()
def graph(n):
    """An array of nodes, each of which refers to two earlier nodes."""

    def write(it):
        it.block(0, n)
        for k in range(n):
            it.block(0, 3)
            it.integer(k)
            it.refer(1 + k * 7_919 % (k + 1))
            it.refer(1 + k // 2)

    types = ["type node = { number : int; mutable left : node; mutable right : node }"]
    return Case(one(write), "node array", types=types, path=".7")


@generator()
def ring(n):
    """A list whose end is its beginning."""

    def write(it):
        it.times(n, lambda k: (it.block(0, 2), it.integer(k)))
        it.refer(0)

    return Case(one(write), "int list", path=".1")


@generator(first=10_000, most=1 << 28)
def long_string(n):
    """One string of letters."""
    return Case(one(lambda it: it.string(b"x" * n)), "string")


@generator(first=10_000, most=1 << 28)
def long_noise(n):
    """One string of bytes, most of which are no letters."""
    return Case(one(lambda it: it.string(random.Random(1).randbytes(n))), "string")


@generator()
def strings(n):
    """An array of strings of 5 to 40 bytes."""
    return Case(one(lambda it: (it.block(0, n), it.times(n, lambda k: it.string(b"text %03d " % k * (1 + k % 4))))), "string array")


@generator()
def doubles(n):
    """A list of doubles."""

    def write(it):
        it.times(n, lambda k: (it.block(0, 2), it.double(k / 3)))
        it.integer(0)

    return Case(one(write), "float list", path=".0")


@generator()
def array_of_doubles(n):
    """One array of doubles."""

    def write(it):
        it.doubles(n, b"")
        it.times(n, lambda k: it.data.extend(struct.pack("<d", k / 3)))

    return Case(one(write), "float array")


@generator()
def records_of_doubles(n):
    """An array of records of three doubles."""
    three = struct.pack("<ddd", 1.5, 1 / 3, 1e300)
    types = ["type point = { x : float; y : float; z : float }"]
    write = one(lambda it: (it.block(0, n), it.times(n, lambda k: it.doubles(3, three))))
    return Case(write, "point array", types=types, path=".7")


@generator()
def boxed(n):
    """An array of boxed integers of 64 bits."""
    return Case(one(lambda it: (it.block(0, n), it.times(n, lambda k: it.int64(k << 40)))), "int64 array", path=".7")


STREAM = tuple(way for way in WAYS if way.command != "same")


@generator(ways=STREAM)
def values(n):
    """A stream of pairs of an integer and a string."""
    text = b"a value"
    write = many(n, lambda it, k: (it.block(0, 2), it.integer(k), it.string(text)))
    return Case(write, "int * string", path=".0", values=n)


def tree(it, count, element, data=None, first=0):
    """A search tree of the elements with the numbers from `first` on. Returns its height."""
    if count == 0:
        it.integer(0)
        return 0
    left = (count - 1) // 2
    it.block(0, 4 if data is None else 5)
    height = tree(it, left, element, data, first)
    element(first + left)
    if data is not None:
        data(first + left)
    height = 1 + max(height, tree(it, count - 1 - left, element, data, first + left + 1))
    it.integer(height)
    return height


SET = "type 'a set = Empty | Node of {l : 'a set; v : 'a; r : 'a set; h : int}"
MAP = "type ('a, 'b) map = Empty | Node of {l : ('a, 'b) map; v : 'a; d : 'b; r : ('a, 'b) map; h : int}"


@generator()
def integer_set(n):
    """A set of integers."""
    return Case(one(lambda it: tree(it, n, it.integer)), "int set", types=[SET], path=".1")


@generator()
def string_map(n):
    """A map of strings to integers."""
    write = one(lambda it: tree(it, n, lambda k: it.string(b"key %09d" % k), it.integer))
    return Case(write, "(string, int) map", types=[MAP], path=".1")


def two_strings(it, size):
    """Two strings of a size that differ in their last byte, and an array of them."""
    for last in b"ab":
        it.string(b"x" * (size - 1) + bytes([last]))


@generator(first=100)
def sets_of_long_strings(n):
    """Sets of two strings, which all sets share, and which are the longer the more sets there are."""

    def write(it):
        it.block(0, 2)
        two_strings_after = it.objects
        it.block(0, 2)
        two_strings(it, 500 * n)
        it.block(0, n)
        for _ in range(n):
            it.block(0, 4)
            it.integer(0)
            it.refer(two_strings_after + 1)
            it.block(0, 4)
            it.integer(0)
            it.refer(two_strings_after + 2)
            for number in (0, 1, 2):
                it.integer(number)

    return Case(one(write), "(string * string) * string set array", types=[SET])


@generator(first=100, ways=named("trees"), statuses=(1,))
def unsound_set_of_long_strings(n):
    """A tree whose nodes have two long strings in turn, so that it is no set."""

    def write(it):
        it.block(0, 2)
        it.block(0, 2)
        two_strings(it, 500 * n)
        tree(it, n, lambda k: it.refer(2 + k % 2))

    return Case(one(write), "(string * string) * string set", types=[SET])


def variants(n):
    """A chain of variants, each of which has the next, and a set."""
    chained = [f"t{k} = Last{k} of int set | Next{k} of t{k + 1}" for k in range(n)]
    return [SET, "type " + " and ".join([*chained, f"t{n} = Last{n} of int set"])]


@generator(ways=STREAM, first=8_000, most=32_000)
def values_at_many_types(n):
    """A stream of small sets, at a type that reaches as many types as there are values."""

    def write(it, k):
        it.block(0, 1)
        tree(it, 3, it.integer)

    return Case(many(n, write), "t0", types=variants(n), path=".0", values=n)


@generator(first=200, most=60_000)
def value_at_many_types(n):
    """A value that has one block of each of many types."""

    def write(it):
        it.times(n, lambda k: it.block(1, 1))
        it.block(0, 1)
        tree(it, 3, it.integer)

    return Case(one(write), "t0", types=variants(n), path=".0")


@generator(first=250)
def constants(n):
    """An array of the constants of a variant."""
    types = ["type t = " + " | ".join(f"Constant{k}" for k in range(n))]
    write = one(lambda it: (it.block(0, 10 * n), [it.integer(k) for _ in range(10) for k in range(n)]))
    return Case(write, "t array", types=types, path=".7")


def tags(n):
    """So many tags with different hashes, and their hashes."""
    found = {}
    for k in range(2 * n):
        found.setdefault(hash_of(f"Tag{k}"), f"Tag{k}")
        if len(found) == n:
            break
    return list(found.items())


@generator(first=1_000)
def tags_without_arguments(n):
    """An array of the tags of a polymorphic variant."""
    named_tags = tags(n)
    types = ["type t = [ " + " | ".join(f"`{name}" for _, name in named_tags) + " ]"]
    write = one(lambda it: (it.block(0, 10 * n), [it.integer(number) for _ in range(10) for number, _ in named_tags]))
    return Case(write, "t array", types=types, path=".7")


@generator(first=1_000)
def tags_with_arguments(n):
    """An array of tags with an argument."""
    named_tags = tags(n)
    types = ["type t = [ " + " | ".join(f"`{name} of int" for _, name in named_tags) + " ]"]

    def write(it):
        it.block(0, 10 * n)
        for k in range(10):
            for number, _ in named_tags:
                it.block(0, 2)
                it.integer(number)
                it.integer(k)

    return Case(one(write), "t array", types=types, path=".7")


@generator(first=250)
def fields(n):
    """A record of many fields, each of another type in turn."""
    kinds = "int", "string", "bool", "int option", "float", "int list"
    types = ["type t = { " + "; ".join(f"field{k} : {kinds[k % 6]}" for k in range(n)) + " }"]

    def field(it, k):
        if k % 6 == 1:
            it.string(b"text")
        elif k % 6 == 4:
            it.double(k / 3)
        else:
            it.integer(0)

    return Case(one(lambda it: (it.block(0, n), [field(it, k) for k in range(n)])), "t", types=types, path=f".{n - 1}")


@generator(first=200, most=1_600)
def list_at_many_types(n):
    """One list that a record has at many types."""
    declared, record = many_lists(n)

    def write(it):
        it.block(0, n)
        it.times(n, lambda k: (it.block(0, 2), it.block(0, 1), it.integer(k)))
        it.integer(0)
        for _ in range(n - 1):
            it.refer(1)

    return Case(one(write), record, types=declared, path=".1")


@generator()
def set_at_two_types(n):
    """One set at two types."""

    def write(it):
        it.block(0, 2)
        tree(it, n, it.integer)
        it.refer(1)

    return Case(one(write), "int set * int other", types=[SET, SET.replace("set", "other")], path=".0")


# Values that do not have their types.

JUDGED = named("check show get trees verify")


@generator(ways=JUDGED, statuses=(1,))
def last_is_wrong(n):
    """A list whose end is a wrong constant, so that the path to the fault is long."""

    def write(it):
        it.times(n, lambda k: (it.block(0, 2), it.integer(k)))
        it.integer(1)

    return Case(one(write), "int list")


@generator(ways=JUDGED, statuses=(1,))
def all_are_wrong(n):
    """An array in which each element is wrong."""
    return Case(one(lambda it: (it.block(0, n), it.times(n, lambda k: (it.block(0, 1), it.string(b"text"))))), "int ref array")


@generator(ways=JUDGED, statuses=(1,))
def wrong_values(n):
    """A stream of values that do not have the type."""
    write = many(n, lambda it, k: (it.block(0, 2), it.integer(k), it.string(b"text")))
    return Case(write, "int * int", values=n)


@generator(ways=JUDGED, statuses=(1,))
def mutable_at_two_types(n):
    """An array of pairs of one mutable object at two types."""

    def element(it):
        it.block(0, 2)
        it.block(0, 1)
        it.integer(0)
        it.refer(it.objects - 1)

    write = one(lambda it: (it.block(0, n), it.times(n, lambda k: element(it))))
    return Case(write, "(int ref * bool ref) array")


# Declarations and types: the input has no value.


def declared_case(make, n):
    declared, type_text = make(n)
    return Case(lambda out: None, type_text, types=declared)


for _, declared_by, size in DECLARED:
    GENERATORS.append(Generator(
        f"types_{declared_by.__name__}", functools.partial(declared_case, declared_by), max(16, size // 16), 60_000,
        tuple(way for way in WAYS if way.command in ("check", "trees", "build") and not way.options), (0,),
    ))

TYPE_WAYS = (Way("check"), Way("check", ("--cert",)), Way("trees"), Way("build"))


@generator(ways=TYPE_WAYS, most=1 << 20)
def abbreviations(n):
    """A chain of abbreviations."""
    return Case(lambda out: None, f"t{n}", types=["type t0 = int", *(f"type t{k} = t{k - 1}" for k in range(1, n + 1))])


@generator(ways=TYPE_WAYS, first=1_000, most=1 << 17)
def parameters(n):
    """A type of many parameters, applied to them in another order."""
    names = ", ".join(f"'a{k}" for k in range(n))
    turned = ", ".join(f"'a{k}" for k in (*range(1, n), 0))
    arguments = ", ".join(("int", "string")[k % 2] for k in range(n))
    return Case(lambda out: None, "u", types=[
        f"type ({names}) t = Stop | Next of 'a0 * ({names}) s and ({names}) s = S of ({names}) t",
        f"type ({names}) v = ({turned}) t",
        f"type u = ({arguments}) v",
    ])


@generator(ways=TYPE_WAYS, most=12_000)
def long_type(n):
    """A tuple of many parts as the argument TYPE."""
    return Case(lambda out: None, " * ".join(("int", "string", "int list")[k % 3] for k in range(n)))


@generator(ways=TYPE_WAYS)
def comments(n):
    """Declarations between comments and blank lines."""
    return Case(lambda out: None, "t", types=["type t = int", *("(* a comment *)\n" for _ in range(n))])


@generator(ways=(Way("check", ("--lines",)),), statuses=(3,))
def refused_declarations(n):
    """Declarations whose last one is refused."""
    return Case(lambda out: None, "int", types=[*(f"type t{k} = int" for k in range(n)), "type last = unknown"])


# Paths, scripts, texts and certificates.


def cells(n):
    """The writer of a list of integers."""
    return one(lambda it: (it.times(n, lambda k: (it.block(0, 2), it.integer(k))), it.integer(0)))


@generator(ways=named("get"), most=60_000)
def long_path(n):
    """A path of many steps as the argument PATH."""
    return Case(cells(n + 1), "int list", path=".1" * n)


EDITS = Way("edit"), Way("edit", ("--decimal",)), Way("edit", ("--compat32",))


@generator(ways=EDITS)
def long_path_in_script(n):
    """A script with one line, whose path has many steps."""
    return Case(cells(n + 1), "int list", script=["0 set " + ".1" * n + ".0 = 7"])


@generator(ways=EDITS)
def line_for_each_value(n):
    """A stream of lists, and a script with a line for each."""
    write = many(n, lambda it, k: (it.block(0, 2), it.integer(k), it.integer(0)))
    return Case(write, "int list", script=[f"{k} set .0 = {k + 1}" for k in range(n)], values=n)


@generator(ways=EDITS)
def lines_for_small_value(n):
    """A script with many lines for one small value."""
    return Case(cells(1), "int list", script=[f"0 set .0 = {k}" for k in range(n)])


@generator(ways=EDITS, first=50)
def lines_for_large_value(n):
    """A script with as many lines as the value has elements."""
    return Case(cells(10 * n), "int list", script=[f"0 set .0 = {k}" for k in range(n)])


@generator(ways=EDITS)
def copies_in_turn(n):
    """A script that copies a part of each value into the next one."""
    write = many(n, lambda it, k: (it.block(0, 2), it.integer(k), it.integer(0)))
    return Case(write, "int list", script=[f"{k} graft .0 = {k - 1} .0" for k in range(1, n)], values=n)


@generator(ways=EDITS)
def copies_into_last(n):
    """A script that copies each value to the last one in turn."""
    write = many(n, lambda it, k: (it.block(0, 2), it.integer(k), it.integer(0)))
    return Case(write, "int list", script=[f"{n - 1} graft . = {k} ." for k in range(n - 1)], values=n)


@generator(ways=EDITS, first=20)
def copies_of_large_value(n):
    """A script that copies a large value again and again."""

    def write(out):
        cells(10 * n)(out)
        cells(1)(out)

    return Case(write, "int list", script=["1 graft . = 0 ."] * n, values=2)


@generator(ways=EDITS)
def long_literal(n):
    """A script with the literal of a long list."""
    literal = "".join(f"::({k}, " for k in range(n)) + "[]" + ")" * n
    return Case(cells(1), "int list", script=["0 set . = " + literal])


@generator(ways=EDITS)
def long_string_literal(n):
    """A script with the literal of a long string, with escapes."""
    return Case(one(lambda it: it.string(b"x")), "string", script=['0 set . = "' + "text\\n" * n + '"'])


@generator(ways=EDITS)
def labels_in_literal(n):
    """A script with a literal of many labels."""
    literal = "[|" + "; ".join(f"#{k}=ref({k})" for k in range(n)) + "; " + "; ".join(f"#{k}" for k in range(n)) + "|]"
    return Case(one(lambda it: it.block(0, 0)), "int ref array", script=["0 set . = " + literal])


@generator(ways=EDITS)
def comments_in_script(n):
    """A script of blank lines and comments."""
    return Case(cells(1), "int list", script=["(* a comment *)", ""] * n)


@generator(ways=(*EDITS, Way("edit", ("--lines",))), statuses=(5,))
def lines_without_value(n):
    """A script with lines for values that never come."""
    return Case(cells(1), "int list", script=[f"{k} set .0 = 7" for k in range(n)])


BUILDS = Way("build"), Way("build", ("--lines",)), Way("build", ("--decimal",))


@generator(ways=BUILDS, statuses=(5,))
def refused_text(n):
    """A text whose last token is refused."""
    return Case(lambda out: None, "int list", text=["".join(f"::({k}, " for k in range(n)) + "true" + ")" * n])


@generator(ways=BUILDS)
def texts(n):
    """Texts of small values, every second one with a comment."""
    text = [f'Some(({k}, "text"))' + " (* a comment *)" * (k % 2) for k in range(n)]
    return Case(lambda out: None, "(int * string) option", text=text)


@generator(ways=BUILDS)
def text_with_labels(n):
    """A text of many labels."""
    label = "; ".join(f"#{k}=ref({k})" for k in range(n)) + "; " + "; ".join(f"#{k}" for k in range(n))
    return Case(lambda out: None, "int ref array", text=[f"[|{label}|]"])


VERIFY = (Way("verify"),)


@generator(ways=VERIFY, statuses=(12,))
def no_certificate(n):
    """A file CERT whose only line is long."""
    return Case(cells(1), "int list", certificate=["x" * n])


@generator(ways=VERIFY, statuses=(12,))
def entries_without_value(n):
    """A certificate with entries for values that never come."""
    return Case(lambda out: None, "int", certificate=[f"value {k} yes\nend" for k in range(n)])


# Other bytes, for `scan`, and generated values.

SCANS = Way("scan"), Way("scan", ("--limit",))


@generator(ways=SCANS, first=100_000, most=1 << 28)
def zero_bytes(n):
    """Zeros."""
    return Case(lambda out: out.write(bytes(n)))


@generator(ways=SCANS, first=100_000, most=1 << 28)
def noise(n):
    """Bytes that were drawn."""
    drawn = random.Random(1)

    def write(out):
        for _ in range(0, n, 65_536):
            out.write(drawn.randbytes(65_536))

    return Case(write)


@generator(ways=SCANS)
def magics(n):
    """The magic number of values, again and again."""
    return Case(lambda out: out.write(b"\x84\x95\xa6\xbe" * n))


@generator(ways=SCANS)
def beginnings_of_magics(n):
    """The first three bytes of the magic number of values, again and again."""
    return Case(lambda out: out.write(b"\x84\x95\xa6" * n))


@generator(ways=SCANS, first=50)
def claims_of_some_bytes(n):
    """Headers of values whose first block has 400 fields, which are the headers that follow."""
    return Case(lambda out: out.write(headers(n, 0x4040, 400)))


@generator(ways=SCANS, first=50, most=10_000)
def claims_of_all_bytes(n):
    """Headers of values whose first block has 400 fields, which are all headers that follow."""
    return Case(lambda out: out.write(headers(n, 0x404040, 400)))


@generator(ways=SCANS, first=5, most=1_000)
def claims_that_grow(n):
    """Headers of values whose first block has 4,000 fields, and which claim the more words the more headers there are."""
    return Case(lambda out: out.write(headers(n, 0x4040 + 0x10000 * (n // 5), 4_000)))


@generator(ways=SCANS)
def claims_of_strings(n):
    """Headers of values, each of which is a string of all bytes that follow and of one more."""

    def write(out):
        for k in range(n):
            size = 25 * (n - 1 - k) + 1
            out.write(struct.pack(">5IBI", 0x8495A6BE, size + 5, 1, size // 4 + 2, size // 8 + 2, 10, size))

    return Case(write)


@generator(ways=(Way("scan"),))
def values_in_noise(n):
    """Small values between bytes that were drawn."""
    drawn = random.Random(1)

    def write(out):
        for k in range(n):
            out.write(drawn.randbytes(20))
            many(1, lambda it, _: (it.block(0, 2), it.integer(k), it.string(b"text")))(out)

    return Case(write)


SKIPS = Way("check", SKIP), Way("edit", SKIP), Way("dump", ("--skip",)), Way("same", ("--skip",))


@generator(ways=SKIPS, first=100_000, most=1 << 28, statuses=(0, 2))
def skipped_bytes(n):
    """Bytes that are skipped, before a small value."""
    return Case(one(lambda it: it.integer(7)), before=n)


def generated(type_text):
    return lambda n: Case(lambda out: None, type_text, count=n)


DRAWN = "int list", "(int * string) array", "int ref list", "(float * int64 option) list", "float array"
for number, drawn_type in enumerate(DRAWN):
    GENERATORS.append(Generator(f"generated_{number}", generated(drawn_type), 1_000, 1_000_000, (GEN,), (0, 1)))


# The whole.


def known_reason(name, way, what):
    """Why KNOWN has the growth of the time or the memory, or None."""
    fits = ((it.reason, fnmatch.fnmatch(name, it.generators) and fnmatch.fnmatch(way, it.ways) and what in it.grows) for it in KNOWN)
    return next((reason for reason, good in fits if good), None)


def missing_ways():
    """The commands and options of omarshal that no way calls."""
    with open(os.path.join(HERE, "commands.json"), encoding="utf-8") as file:
        commands = json.load(file)["commands"]
    called = {(way.command, option) for it in GENERATORS for way in it.ways for option in (None, *way.options)}
    asked = ((it["name"], option) for it in commands for option in (None, *it["options"]))
    return [f"{name} {option or ''}" for name, option in asked if (name, option) not in called]


def described(pair):
    """The text of a pair of runs."""
    size = pair.sizes[1] / max(1, pair.sizes[0])
    seconds = f"over {limit} s" if pair.over else f"{pair.seconds[1]:.3f} s"
    times = pair.seconds[1] / pair.seconds[0]
    text = f"{pair.seconds[0]:.3f} s and {seconds} at {pair.count} and {2 * pair.count}: time ×{times:.2f}"
    memory = f", memory ×{pair.peaks[1] / pair.peaks[0]:.2f} ({pair.peaks[1]:.0f} MB)" if min(pair.peaks) > 1 else ""
    return f"{text}, size ×{size:.2f}{memory}"


def main():
    global limit, idle, server
    parser = argparse.ArgumentParser(description="Finds inputs on which omarshal takes more than the growth of the input explains.")
    parser.add_argument("--only", metavar="GENERATOR", default="*")
    parser.add_argument("--limit", metavar="SECONDS", type=int, default=limit)
    parser.add_argument("--all", action="store_true")
    parser.add_argument("program", metavar="PROGRAM", nargs="?", default=next(filter(os.path.exists, PROGRAMS), PROGRAMS[0]))
    asked = parser.parse_args()
    limit, program = asked.limit, os.path.realpath(asked.program)
    if not os.access(program, os.X_OK):
        sys.exit(f"find_growth: there is no program {program}: ./omarshal --prove or tools/quick_build.sh builds it")
    if missing := missing_ways():
        sys.exit(f"find_growth: not called: {', '.join(missing)}")
    chosen = [it for it in GENERATORS if fnmatch.fnmatch(it.name, asked.only)]
    if not chosen:
        sys.exit(f"find_growth: the generators are {', '.join(it.name for it in GENERATORS)}")
    server, line = multiprocessing.Pipe()
    if os.fork() == 0:
        server.close()
        serve(line)
    line.close()
    measured = short = listed = unknown = 0
    faults = []
    with tempfile.TemporaryDirectory() as work:
        idle = min(run([program, "check", os.devnull, "int"], os.devnull, work) for _ in range(3 * RUNS))
        for it in chosen:
            room = os.path.join(work, it.name)
            os.mkdir(room)
            for way in it.ways:
                try:
                    pair, grows = it.pair(way, program, room)
                except Unexpected as fault:
                    faults.append(str(fault))
                    print(f"UNEXPECTED {fault}", flush=True)
                    continue
                measured += 1
                short += pair.seconds[1] < FLOOR
                for what in grows:
                    why = known_reason(it.name, name_of(way), what)
                    listed += 1
                    unknown += why is None
                    print(f"{what}: {it.name}, {name_of(way)}: {described(pair)}; {why or 'UNKNOWN'}", flush=True)
                if asked.all and not grows:
                    print(f"linear: {it.name}, {name_of(way)}: {described(pair)}", flush=True)
            shutil.rmtree(room)
            it.cases.clear()
    counts = f"{measured} pairs measured, {short} of them below {FLOOR} s"
    print(f"{len(chosen)} generators, {counts}, {listed} listed, {unknown} unknown")
    return 2 if faults else int(unknown > 0)


if __name__ == "__main__":
    sys.exit(main())

#!/usr/bin/env python3
"""Turns the text of a value, as `omarshal show` prints it, into an expression of OCaml.

    python3 shown_to_ocaml.py < TEXT > EXPRESSION

Leaves become variables that are bound first, since `let rec` takes no calls; labels become variables of one `let rec`.
Where a string stands at `bytes`, or a row of doubles at `floatarray`, the text does not show it: both go through `Obj.magic`.
"""

import os
import re
import sys
import threading


def fail(why):
    print(why, file=sys.stderr)
    os._exit(1)


TOKEN = re.compile(r"""
      \#(?P<label>[0-9]+)(?P<first>=)?
    | \$(?P<double>[0-9a-f]{16})
    | (?P<int>-?[0-9]+[lLn]?)
    | (?P<char>'(?:[^\\]|\\.[0-9]{0,2})')
    | (?P<string>"(?:[^"\\]|\\.)*")
    | (?P<symbol>\[\||\|\]|\[\]|::|\(\)|[(){},;=])
    | (?P<tag>`[A-Za-z_][A-Za-z0-9_']*)
    | (?P<name>[A-Za-z_][A-Za-z0-9_']*)
    | (?P<space>\ )
""", re.VERBOSE | re.DOTALL)


def tokens_of(text):
    at = 0
    while at < len(text):
        match = TOKEN.match(text, at)
        if not match:
            fail("no lexeme at byte %d: %r" % (at, text[at:at + 20]))
        at = match.end()
        if match.lastgroup != "space":
            yield match
    yield None


class Reader:
    def __init__(self, text):
        self.tokens = list(tokens_of(text))
        self.at = 0
        self.leaves = []
        self.labels = []

    def leaf(self, expression):
        self.leaves.append(expression)
        return "leaf%d" % (len(self.leaves) - 1)

    def next_is(self, symbol):
        token = self.tokens[self.at]
        return token is not None and token.group() == symbol

    def take(self, symbol):
        if not self.next_is(symbol):
            fail("%r expected at lexeme %d" % (symbol, self.at))
        self.at += 1

    # parts between an opening that was taken and a closing
    def row(self, closing, between, part):
        parts = []
        while not self.next_is(closing):
            if parts:
                self.take(between)
            parts.append(part())
        self.take(closing)
        return parts

    def field(self):
        name = self.tokens[self.at].group()
        self.at += 1
        self.take("=")
        return "%s = %s" % (name, self.value())

    def fields(self):
        return "{%s}" % "; ".join(self.row("}", ";", self.field))

    # what may follow a name
    def arguments(self):
        if self.next_is("("):
            self.take("(")
            return " (%s)" % ", ".join(self.row(")", ",", self.value))
        if self.next_is("{"):
            self.take("{")
            return " " + self.fields()
        return ""

    def array(self):
        begin = self.at
        parts = self.row("|]", ";", self.value)
        inside = self.tokens[begin:self.at - 1]
        text = "[|%s|]" % "; ".join(parts)
        if all(t.group("double") or t.group() == ";" for t in inside):
            return self.leaf("Obj.magic %s" % text)
        return text

    def labelled(self, token):
        number = int(token.group("label"))
        if token.group("first"):
            if number != len(self.labels):
                fail("label %d is not the next one" % number)
            self.labels.append(None)
            self.labels[number] = self.value()
        elif number >= len(self.labels):
            fail("label %d is used before it stands" % number)
        return "label%d" % number

    def value(self):
        token = self.tokens[self.at]
        if token is None:
            fail("the text ends too early")
        self.at += 1
        text = token.group()
        if token.group("label"):
            return self.labelled(token)
        if token.group("double"):
            return self.leaf("Int64.float_of_bits 0x%sL" % token.group("double"))
        if token.group("int"):
            return self.leaf("(%s)" % text) if text[-1] in "lLn" else "(%s)" % text
        if token.group("char"):
            return text
        if token.group("string"):
            return self.leaf("Obj.magic (Bytes.of_string %s)" % text)
        if text == "(":
            return "(%s)" % ", ".join(self.row(")", ",", self.value))
        if text == "{":
            return self.fields()
        if text == "[|":
            return self.array()
        if text in ("()", "[]", "true", "false"):
            return text
        if text == "ref":
            self.take("(")
            return "{contents = %s}" % self.row(")", ",", self.value)[0]
        if text == "::":
            return "((::)%s)" % self.arguments()
        if token.group("tag") or text[0].isupper():
            return "(%s%s)" % (text, self.arguments())
        fail("no value begins with %r" % text)


def main():
    reader = Reader(sys.stdin.buffer.read().decode("latin-1").rstrip("\n"))
    root = reader.value()
    if reader.tokens[reader.at] is not None:
        fail("the text goes on after the value")
    out = ["let leaf%d = %s in" % leaf for leaf in enumerate(reader.leaves)]
    if reader.labels:
        out.append("let rec " + "\nand ".join("label%d = %s" % label for label in enumerate(reader.labels)) + " in")
    sys.stdout.buffer.write(("\n".join(out + [root]) + "\n").encode("latin-1"))


# texts may nest deeply
sys.setrecursionlimit(1000000)
threading.stack_size(512 << 20)
thread = threading.Thread(target=main)
thread.start()
thread.join()
